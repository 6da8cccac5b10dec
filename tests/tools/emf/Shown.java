import java.io.PrintStream;
import java.util.ArrayList;
import java.util.Collections;
import java.util.List;
import org.eclipse.emf.ecore.EAttribute;
import org.eclipse.emf.ecore.EClass;
import org.eclipse.emf.ecore.EClassifier;
import org.eclipse.emf.ecore.EDataType;
import org.eclipse.emf.ecore.EObject;
import org.eclipse.emf.ecore.EPackage;
import org.eclipse.emf.ecore.EReference;
import org.eclipse.emf.ecore.EStructuralFeature;
import org.eclipse.emf.ecore.InternalEObject;
import org.eclipse.emf.ecore.resource.Resource;
import org.eclipse.emf.ecore.util.EcoreUtil;
import org.eclipse.emf.ecore.util.FeatureMap;
import org.eclipse.emf.ecore.util.FeatureMapUtil;

/** What a resource has, as lines: a line for each object, and one for each feature that is set. */
final class Shown {
  private final Resource resource;
  private final PrintStream out;
  private final boolean sorts;

  /** If it sorts, the order of transient ends is not shown: it depends on how the file writes its references. */
  Shown(Resource resource, PrintStream out, boolean sorts) {
    this.sorts = sorts;
    this.resource = resource;
    this.out = out;
  }

  void tell() {
    int place = 0;
    for (EObject root : resource.getContents()) {
      tell(root, "/" + place++);
    }
  }

  private void tell(EObject object, String path) {
    out.println(path + " " + object.eClass().getName());
    for (EStructuralFeature feature : object.eClass().getEAllStructuralFeatures()) {
      if (isTold(object, feature)) {
        tell(object, feature, path + "/" + feature.getName());
      }
    }
  }

  /** Ends that lead to a holder, feature maps, and what is calculated have their values elsewhere. */
  private static boolean isTold(EObject object, EStructuralFeature feature) {
    if (FeatureMapUtil.isFeatureMap(feature) || feature instanceof EReference && ((EReference) feature).isContainer()) {
      return false;
    }
    try {
      return object.eIsSet(feature);
    } catch (RuntimeException found) {
      return false;
    }
  }

  private void tell(EObject object, EStructuralFeature feature, String path) {
    List<Object> values = valuesOf(object, feature);
    if (feature instanceof EReference && ((EReference) feature).isContainment()) {
      int place = 0;
      for (Object it : values) {
        if (((EObject) it).eIsProxy() || ((InternalEObject) it).eDirectResource() != null) {
          out.println(path + "." + place++ + " elsewhere");
        } else {
          tell((EObject) it, path + "." + place++);
        }
      }
      return;
    }
    List<String> texts = new ArrayList<>();
    for (Object it : values) {
      texts.add(feature instanceof EAttribute ? text(feature, it) : addressOf((EObject) it));
    }
    if (sorts && feature.isTransient()) {
      Collections.sort(texts);
    }
    out.println(path + " = " + String.join(" ", texts));
  }

  private static List<Object> valuesOf(EObject object, EStructuralFeature feature) {
    List<Object> made = new ArrayList<>();
    Object value = object.eGet(feature);
    if (value instanceof List && (feature.isMany() || value instanceof FeatureMap || isFree(feature))) {
      made.addAll((List<?>) value);
    } else {
      made.add(value);
    }
    return made;
  }

  private static boolean isFree(EStructuralFeature feature) {
    return feature.getUpperBound() == -2 && feature instanceof EReference;
  }

  private static String text(EStructuralFeature feature, Object value) {
    EDataType type = ((EAttribute) feature).getEAttributeType();
    return value == null ? "null" : quoted(EcoreUtil.convertToString(type, value));
  }

  private static String quoted(String text) {
    StringBuilder made = new StringBuilder("\"");
    for (char it : String.valueOf(text).toCharArray()) {
      made.append(it < ' ' || it == '"' || it == '\\' || it > '~' ? String.format("\\u%04x", (int) it) : String.valueOf(it));
    }
    return made.append('"').toString();
  }

  /** The file and the positions of an object; of a proxy, its URI as it was read. */
  private String addressOf(EObject object) {
    if (object == null) {
      return "null";
    }
    object = EcoreUtil.resolve(object, resource);
    if (object.eIsProxy()) {
      return "proxy " + ((InternalEObject) object).eProxyURI().deresolve(resource.getURI());
    }
    StringBuilder made = new StringBuilder();
    EObject at = object;
    for (; at.eContainer() != null; at = at.eContainer()) {
      EReference by = at.eContainmentFeature();
      Object held = at.eContainer().eGet(by);
      made.insert(0, "/" + by.getName() + "." + (held instanceof List ? ((List<?>) held).indexOf(at) : 0));
    }
    Resource home = at.eResource();
    if (home == null) {
      return "nowhere" + made;
    }
    return home.getURI().lastSegment() + "#/" + home.getContents().indexOf(at) + made;
  }

  /** The types of the features of a package, and of its subpackages. */
  static void tellTypes(EPackage found, PrintStream out) {
    for (EClassifier classifier : found.getEClassifiers()) {
      out.println(found.getName() + "." + classifier.getName() + " " + classifier.eClass().getName());
      if (classifier instanceof EClass) {
        EClass it = (EClass) classifier;
        it.getESuperTypes().forEach(above -> out.println("  above " + named(above)));
        it.getEStructuralFeatures().forEach(feature -> out.println("  " + feature.getName() + " " + named(feature.getEType())));
        it.getEOperations().forEach(call -> out.println("  " + call.getName() + "() " + named(call.getEType())));
      }
    }
    for (EPackage below : found.getESubpackages()) {
      tellTypes(below, out);
    }
  }

  private static String named(EClassifier type) {
    if (type == null) {
      return "none";
    }
    if (type.eIsProxy()) {
      return "proxy " + ((InternalEObject) type).eProxyURI();
    }
    return type.getEPackage().getNsURI() + "#" + type.getName();
  }

  static String oneLine(String text) {
    return String.valueOf(text).replaceAll("\\s+", " ");
  }
}
