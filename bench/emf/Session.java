import java.io.ByteArrayInputStream;
import java.io.ByteArrayOutputStream;
import java.io.IOException;
import java.util.ArrayList;
import java.util.List;
import org.eclipse.emf.common.util.EList;
import org.eclipse.emf.common.util.URI;
import org.eclipse.emf.ecore.EClass;
import org.eclipse.emf.ecore.EObject;
import org.eclipse.emf.ecore.EReference;
import org.eclipse.emf.ecore.EStructuralFeature;
import org.eclipse.emf.ecore.resource.Resource;
import org.eclipse.emf.ecore.resource.ResourceSet;
import org.eclipse.emf.ecore.resource.impl.ResourceSetImpl;
import org.eclipse.emf.ecore.util.EcoreUtil;
import org.eclipse.emf.ecore.xmi.impl.XMIResourceFactoryImpl;

/**
 * A run of one workload: a method for each kind of line in its script, which makes the call of EMF that does the same.
 *
 * <p>The session counts its calls, so that their number can be compared with the lines of the script. It keeps every object that it
 * makes, since a script names objects by their numbers.
 */
final class Session {
  private final List<EObject> objects = new ArrayList<>();
  private final ResourceSet resources = new ResourceSetImpl();
  private int commands;

  /** Makes a session without objects over a metamodel. */
  Session(Library metamodel) {
    resources.getResourceFactoryRegistry().getExtensionToFactoryMap().put("*", new XMIResourceFactoryImpl());
    resources.getPackageRegistry().put(metamodel.all.getNsURI(), metamodel.all);
  }

  /** The number of calls that were made. */
  int commands() {
    return commands;
  }

  /** The object of a number: the first that was made has number 0. */
  EObject object(int number) {
    return objects.get(number);
  }

  /** The line {@code resource}. */
  Resource resource(String uri) {
    commands++;
    return resources.createResource(URI.createURI(uri));
  }

  /** The line {@code new}. */
  EObject create(EClass of) {
    commands++;
    EObject made = EcoreUtil.create(of);
    objects.add(made);
    return made;
  }

  /** The line {@code get}. */
  Object get(EObject of, EStructuralFeature feature) {
    commands++;
    return of.eGet(feature);
  }

  /** The line {@code set}. */
  void set(EObject of, EStructuralFeature feature, Object value) {
    commands++;
    of.eSet(feature, value);
  }

  /** The line {@code add} to the list of an object. */
  boolean add(EObject to, EReference feature, EObject value) {
    commands++;
    return list(to, feature).add(value);
  }

  /** The line {@code add} to the contents of a resource. */
  boolean add(Resource to, EObject value) {
    commands++;
    return to.getContents().add(value);
  }

  /** The line {@code container}. */
  EObject container(EObject of) {
    commands++;
    return of.eContainer();
  }

  /** The line {@code delete}. EMF leaves the links between the objects that it deletes. */
  void delete(EObject top) {
    commands++;
    EcoreUtil.delete(top, true);
  }

  /** The line {@code save}: XMI with EMF's default options, in memory. */
  byte[] save(Resource from) throws IOException {
    commands++;
    ByteArrayOutputStream text = new ByteArrayOutputStream();
    from.save(text, null);
    return text.toByteArray();
  }

  /** The line {@code load}: the text that was saved, with EMF's default options. */
  void load(Resource into, byte[] text) throws IOException {
    commands++;
    into.load(new ByteArrayInputStream(text), null);
  }

  /** The values of a list; this is no line of a script. */
  @SuppressWarnings("unchecked")
  static EList<EObject> list(EObject of, EReference feature) {
    return (EList<EObject>) of.eGet(feature);
  }
}
