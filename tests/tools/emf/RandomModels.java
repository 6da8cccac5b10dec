import java.io.File;
import java.io.PrintStream;
import java.util.ArrayList;
import java.util.List;
import java.util.Random;
import org.eclipse.emf.common.util.URI;
import org.eclipse.emf.ecore.EAttribute;
import org.eclipse.emf.ecore.EClass;
import org.eclipse.emf.ecore.EClassifier;
import org.eclipse.emf.ecore.EDataType;
import org.eclipse.emf.ecore.EEnum;
import org.eclipse.emf.ecore.EEnumLiteral;
import org.eclipse.emf.ecore.EPackage;
import org.eclipse.emf.ecore.EReference;
import org.eclipse.emf.ecore.EStructuralFeature;
import org.eclipse.emf.ecore.EcoreFactory;
import org.eclipse.emf.ecore.EcorePackage;
import org.eclipse.emf.ecore.resource.Resource;
import org.eclipse.emf.ecore.resource.ResourceSet;
import org.eclipse.emf.ecore.resource.impl.ResourceSetImpl;
import org.eclipse.emf.ecore.xmi.impl.XMIResourceImpl;

/** Makes packages in several files, with all flags and opposites across files, and then models of them (RandomObjects). */
final class RandomModels {
  private static final EcoreFactory MAKE = EcoreFactory.eINSTANCE;
  private static final EcorePackage ECORE = EcorePackage.eINSTANCE;
  private static final String[] MARKS = {"", "", "", "", "-x", ".y", "_2", "\u00e9"};
  private static final EDataType[] TYPES = {
    ECORE.getEString(), ECORE.getEString(), ECORE.getEString(), ECORE.getEInt(), ECORE.getEInt(), ECORE.getELong(), ECORE.getEBoolean(),
    ECORE.getEShort(), ECORE.getEByte(), ECORE.getEDouble(), ECORE.getEFloat(), ECORE.getEChar(), ECORE.getEBigDecimal(),
    ECORE.getEBigInteger(), ECORE.getEDate(), ECORE.getEByteArray(), ECORE.getEIntegerObject(), ECORE.getELongObject(),
    ECORE.getEBooleanObject(), ECORE.getEDoubleObject(),
  };
  private final Random random;
  private final File folder;
  private final List<EPackage> packages = new ArrayList<>();
  private final List<EClass> classes = new ArrayList<>();
  private final List<EClassifier> types = new ArrayList<>();
  private int number;

  RandomModels(long seed, File folder) {
    this.random = new Random(seed);
    this.folder = folder;
  }

  private boolean oneOf(int count) {
    return random.nextInt(count) == 0;
  }

  private <T> T any(List<T> list) {
    return list.get(random.nextInt(list.size()));
  }

  private String name(String start) {
    return start + number++ + MARKS[random.nextInt(MARKS.length)];
  }

  void make(PrintStream out) throws Exception {
    ResourceSet set = new ResourceSetImpl();
    int files = 1 + random.nextInt(3);
    List<Resource> made = new ArrayList<>();
    for (int place = 0; place < files; place++) {
      Resource it = new XMIResourceImpl(URI.createFileURI(new File(folder, "m" + place + ".ecore").getAbsolutePath()));
      set.getResources().add(it);
      it.getContents().add(makePackage("p" + place, true));
      made.add(it);
    }
    for (EClass it : classes) {
      addSupertypes(it);
    }
    for (EClass it : classes) {
      addFeatures(it);
    }
    for (EClass it : classes) {
      addReferences(it);
    }
    for (Resource it : made) {
      it.save(Judge.options(new ArrayList<>()));
    }
    new RandomObjects(random, folder, classes).make(out);
  }

  private EPackage makePackage(String name, boolean mayHaveBelow) {
    EPackage made = MAKE.createEPackage();
    made.setName(name);
    made.setNsURI("http://r.example/" + name);
    made.setNsPrefix(oneOf(8) ? "" : name);
    packages.add(made);
    for (int count = random.nextInt(3); count > 0; count--) {
      made.getEClassifiers().add(makeType());
    }
    for (int count = 2 + random.nextInt(4); count > 0; count--) {
      EClass it = MAKE.createEClass();
      it.setName(name("C"));
      it.setAbstract(oneOf(5));
      it.setInterface(it.isAbstract() && oneOf(3));
      made.getEClassifiers().add(it);
      classes.add(it);
    }
    if (mayHaveBelow && oneOf(3)) {
      made.getESubpackages().add(makePackage(name + "s", false));
    }
    return made;
  }

  private EClassifier makeType() {
    if (oneOf(3)) {
      EDataType made = MAKE.createEDataType();
      made.setName(name("T"));
      made.setInstanceClassName(oneOf(2) ? "java.lang.Integer" : "java.lang.String");
      types.add(made);
      return made;
    }
    EEnum made = MAKE.createEEnum();
    made.setName(name("E"));
    for (int place = 0, count = 1 + random.nextInt(4); place < count; place++) {
      EEnumLiteral it = MAKE.createEEnumLiteral();
      it.setName("L" + place + MARKS[random.nextInt(MARKS.length)]);
      it.setLiteral(oneOf(2) ? it.getName() : "l " + place);
      it.setValue(oneOf(4) ? 10 + place : place);
      made.getELiterals().add(it);
    }
    types.add(made);
    return made;
  }

  private void addSupertypes(EClass to) {
    for (int count = random.nextInt(3); count > 0; count--) {
      EClass above = any(classes.subList(0, classes.indexOf(to) + 1));
      if (above != to && !to.getESuperTypes().contains(above)) {
        to.getESuperTypes().add(above);
      }
    }
  }

  private void flag(EStructuralFeature made) {
    made.setUpperBound(oneOf(3) ? -1 : oneOf(6) ? 3 : oneOf(20) ? -2 : 1);
    made.setLowerBound(oneOf(6) ? 1 : 0);
    made.setOrdered(!oneOf(6));
    made.setUnique(made instanceof EReference || !oneOf(3));
    made.setUnsettable(oneOf(5));
    made.setTransient(oneOf(12));
    made.setVolatile(oneOf(25));
    made.setDerived(oneOf(25));
    made.setChangeable(!oneOf(25));
  }

  private void addFeatures(EClass to) {
    for (int count = random.nextInt(5); count > 0; count--) {
      EAttribute made = MAKE.createEAttribute();
      made.setName(name("a"));
      made.setEType(types.isEmpty() || !oneOf(3) ? TYPES[random.nextInt(TYPES.length)] : any(types));
      flag(made);
      if (!made.isMany() && oneOf(4)) {
        made.setDefaultValueLiteral(defaultOf(made.getEAttributeType()));
      }
      to.getEStructuralFeatures().add(made);
    }
    if (oneOf(4) && to.getEAllAttributes().stream().noneMatch(EAttribute::isID)) {
      EAttribute made = MAKE.createEAttribute();
      made.setName(name("id"));
      made.setEType(oneOf(3) ? ECORE.getEInt() : ECORE.getEString());
      made.setID(true);
      to.getEStructuralFeatures().add(made);
    }
  }

  private String defaultOf(EDataType type) {
    if (type instanceof EEnum) {
      return any(((EEnum) type).getELiterals()).getLiteral();
    }
    return type == ECORE.getEString() ? "a b" : type == ECORE.getEBoolean() ? "true" : type == ECORE.getEInt() ? "7" : null;
  }

  private void addReferences(EClass to) {
    for (int count = random.nextInt(4); count > 0; count--) {
      EReference made = MAKE.createEReference();
      made.setName(name("r"));
      made.setEType(oneOf(15) ? ECORE.getEObject() : any(classes));
      flag(made);
      made.setContainment(oneOf(2));
      made.setResolveProxies(!oneOf(4));
      to.getEStructuralFeatures().add(made);
      if (made.getEType() instanceof EClass && made.getEType() != ECORE.getEObject() && oneOf(2)) {
        addOpposite(made);
      } else if (made.isContainment()) {
        addKeys(made);
      }
    }
  }

  private void addOpposite(EReference one) {
    EReference other = MAKE.createEReference();
    other.setName(name("o"));
    other.setEType(one.getEContainingClass());
    other.setUpperBound(one.isContainment() || oneOf(2) ? 1 : -1);
    other.setTransient(oneOf(4));
    ((EClass) one.getEType()).getEStructuralFeatures().add(other);
    one.setEOpposite(other);
    other.setEOpposite(one);
    for (EReference it : new EReference[] {one, other}) {
      it.setVolatile(false);
      it.setDerived(false);
      it.setChangeable(true);
    }
    one.setTransient(false);
  }

  private void addKeys(EReference to) {
    EClass type = (EClass) to.getEType();
    for (EAttribute it : type.getEAllAttributes()) {
      boolean isPlain = !it.isTransient() && !it.isDerived() && !it.isVolatile() && it.isChangeable();
      if (to.isMany() && isPlain && it.isID()) {
        to.getEKeys().add(it);
      }
    }
  }
}
