import java.io.File;
import java.io.PrintStream;
import java.util.ArrayList;
import java.util.List;
import java.util.Random;
import org.eclipse.emf.ecore.EAttribute;
import org.eclipse.emf.ecore.EClass;
import org.eclipse.emf.ecore.EDataType;
import org.eclipse.emf.ecore.EEnum;
import org.eclipse.emf.ecore.EObject;
import org.eclipse.emf.ecore.EReference;
import org.eclipse.emf.ecore.EStructuralFeature;
import org.eclipse.emf.ecore.EcorePackage;
import org.eclipse.emf.ecore.resource.Resource;
import org.eclipse.emf.ecore.resource.ResourceSet;
import org.eclipse.emf.ecore.resource.impl.ResourceSetImpl;
import org.eclipse.emf.ecore.util.EcoreUtil;

/** Makes objects of classes in several files, and saves them with options at random. */
final class RandomObjects {
  private static final int MOST = 30;
  private static final String[] OPTIONS = {"ids", "latin", "wide", "encoded", "defaults", "types", "xmitype", "flat", "narrow", "locations"};
  private static final String[] TEXTS = {
    "", "a", "two words", " around ", "<&>\"'", "tab\tline\nreturn\rend", "\u00fcber", "\u20ac\u4e2d", "\ud83d\ude00", "#", "/", "p:x", "a#b", "\u00a0",
  };
  private final Random random;
  private final File folder;
  private final List<EClass> classes = new ArrayList<>();
  private final List<EObject> objects = new ArrayList<>();
  private int number;

  RandomObjects(Random random, File folder, List<EClass> all) {
    this.random = random;
    this.folder = folder;
    all.stream().filter(it -> !it.isAbstract()).forEach(classes::add);
  }

  private boolean oneOf(int count) {
    return random.nextInt(count) == 0;
  }

  void make(PrintStream out) throws Exception {
    if (classes.isEmpty()) {
      return;
    }
    ResourceSet set = new ResourceSetImpl();
    List<String> options = new ArrayList<>();
    for (String it : OPTIONS) {
      if (oneOf(5)) {
        options.add(it);
      }
    }
    List<Resource> made = new ArrayList<>();
    for (int place = 0, count = 1 + random.nextInt(3); place < count; place++) {
      Resource it = Judge.resource(new File(folder, "x" + place + ".xmi"), options);
      set.getResources().add(it);
      made.add(it);
      for (int roots = oneOf(3) ? 1 + random.nextInt(3) : 1; roots > 0; roots--) {
        it.getContents().add(makeObject(0));
      }
    }
    for (EObject it : objects) {
      fill(it);
    }
    for (EObject it : objects) {
      link(it);
    }
    for (Resource it : made) {
      it.save(Judge.options(options));
    }
    out.println(String.join(" ", options));
  }

  private EObject makeObject(int level) {
    return makeObject(classes.get(random.nextInt(classes.size())), level);
  }

  private EObject makeObject(EClass of, int level) {
    EObject made = EcoreUtil.create(of);
    objects.add(made);
    for (EReference it : of.getEAllContainments()) {
      if (level < 5 && isSettable(it) && !it.isTransient()) {
        for (int count = random.nextInt(it.isMany() ? 4 : 2); count > 0 && objects.size() < MOST; count--) {
          contain(made, it, level);
        }
      }
    }
    return made;
  }

  private void contain(EObject owner, EReference by, int level) {
    List<EClass> fit = new ArrayList<>();
    for (EClass it : classes) {
      if (by.getEReferenceType() == EcorePackage.Literals.EOBJECT || by.getEReferenceType().isSuperTypeOf(it)) {
        fit.add(it);
      }
    }
    if (!fit.isEmpty() && !(by.getUpperBound() > 1 && ((List<?>) owner.eGet(by)).size() >= by.getUpperBound())) {
      add(owner, by, makeObject(fit.get(random.nextInt(fit.size())), level + 1));
    }
  }

  private static boolean isSettable(EStructuralFeature it) {
    return it.isChangeable() && !it.isDerived() && !it.isVolatile();
  }

  @SuppressWarnings("unchecked")
  private static void add(EObject owner, EStructuralFeature feature, Object value) {
    if (feature.isMany()) {
      ((List<Object>) owner.eGet(feature)).add(value);
    } else {
      owner.eSet(feature, value);
    }
  }

  private void fill(EObject object) {
    for (EAttribute it : object.eClass().getEAllAttributes()) {
      if (!isSettable(it) || !it.isID() && oneOf(3)) {
        continue;
      }
      if (it.isMany()) {
        int most = it.getUpperBound() > 1 ? it.getUpperBound() : 4;
        for (int count = random.nextInt(most + 1); count > 0; count--) {
          add(object, it, value(it));
        }
      } else {
        object.eSet(it, value(it));
      }
    }
  }

  private Object value(EAttribute it) {
    EDataType type = it.getEAttributeType();
    if (it.isID()) {
      return EcoreUtil.createFromString(type, type.getName().equals("EInt") ? "" + (100 + number++) : "id" + number++);
    }
    if (type instanceof EEnum) {
      EEnum of = (EEnum) type;
      return of.getELiterals().get(random.nextInt(of.getELiterals().size())).getInstance();
    }
    int some = random.nextInt(200) - 100;
    switch (type.getInstanceClassName()) {
      case "boolean":
      case "java.lang.Boolean":
        return random.nextBoolean();
      case "char":
        return (char) (32 + random.nextInt(500));
      case "double":
      case "java.lang.Double":
        return oneOf(9) ? Double.POSITIVE_INFINITY : some / 8.0;
      case "float":
        return some / 4.0f;
      case "java.util.Date":
        return EcoreUtil.createFromString(type, "2026-01-" + (10 + random.nextInt(18)) + "T03:04:05.678+0000");
      case "byte[]":
        return new byte[] {(byte) some, 0, 1};
      case "java.lang.String":
        return TEXTS[random.nextInt(TEXTS.length)];
      case "long":
      case "java.lang.Long":
        return EcoreUtil.createFromString(type, oneOf(5) ? "-9223372036854775808" : "" + some);
      default:
        return EcoreUtil.createFromString(type, "" + some);
    }
  }

  private void link(EObject object) {
    for (EReference it : object.eClass().getEAllReferences()) {
      if (it.isContainment() || it.isContainer() || !isSettable(it) || it.isTransient() || oneOf(3)) {
        continue;
      }
      int most = it.isMany() ? it.getUpperBound() > 1 ? it.getUpperBound() : 9 : 1;
      for (int count = random.nextInt(most + 1); count > 0; count--) {
        EObject to = objects.get(random.nextInt(objects.size()));
        boolean isOwn = to == object && it.getEOpposite() != null; // EMF reads the order of such a list by ids and by positions differently
        if (!isOwn && fits(it, to) && hasRoom(it.getEOpposite(), to) && !(it.isMany() && (((List<?>) object.eGet(it)).size() >= most || ((List<?>) object.eGet(it)).contains(to)))) {
          add(object, it, to);
        }
      }
    }
  }

  /** Whether the end of a link that EMF completes is not full; EMF doesn't look. */
  private static boolean hasRoom(EReference end, EObject at) {
    return end == null || end.getUpperBound() < 2 || ((List<?>) at.eGet(end)).size() < end.getUpperBound();
  }

  /** Whether a reference takes an object. */
  private static boolean fits(EReference by, EObject to) {
    return by.getEReferenceType() == EcorePackage.Literals.EOBJECT || by.getEReferenceType().isInstance(to);
  }
}
