import org.eclipse.emf.ecore.EAttribute;
import org.eclipse.emf.ecore.EClass;
import org.eclipse.emf.ecore.EDataType;
import org.eclipse.emf.ecore.EEnum;
import org.eclipse.emf.ecore.EEnumLiteral;
import org.eclipse.emf.ecore.EPackage;
import org.eclipse.emf.ecore.EReference;
import org.eclipse.emf.ecore.EStructuralFeature;
import org.eclipse.emf.ecore.ETypedElement;
import org.eclipse.emf.ecore.EcoreFactory;
import org.eclipse.emf.ecore.EcorePackage;

/**
 * The metamodel of {@code examples/library.json} as an {@code EPackage} that is made at run time.
 *
 * <p>The classes and features that the workloads use are fields, so that a workload looks up no name.
 */
final class Library {
  private static final EcoreFactory ECORE = EcoreFactory.eINSTANCE;
  private static final EDataType TEXT = EcorePackage.Literals.ESTRING;
  private static final EDataType INT = EcorePackage.Literals.EINT;
  private static final int MANY = ETypedElement.UNBOUNDED_MULTIPLICITY;

  /** The package of all classes. */
  final EPackage all = ECORE.createEPackage();

  /** The class Library. */
  final EClass library = ECORE.createEClass();

  /** The class Book. */
  final EClass book = ECORE.createEClass();

  /** The class Person. */
  final EClass person = ECORE.createEClass();

  /** The class Folder. */
  final EClass folder = ECORE.createEClass();

  /** The name of a library, a book or a person. */
  EStructuralFeature name;

  /** The books that a library contains. */
  EReference books;

  /** The persons that a library contains. */
  EReference members;

  /** The number of pages of a book. */
  EAttribute pages;

  /** The book before a book; the opposite is the book after it. */
  EReference prev;

  /** The books that a person likes. */
  EReference likes;

  /** The folders that a folder contains. */
  EReference subs;

  /** The folder that contains a folder. */
  EReference parent;

  /** Makes the package. */
  Library() {
    all.setName("library");
    all.setNsPrefix("library");
    all.setNsURI("http://m.example/library");
    EEnum genre = genre();
    named();
    fillLibrary();
    fillBook(genre);
    fillPerson();
    fillFolder();
  }

  private EEnum genre() {
    EEnum made = ECORE.createEEnum();
    made.setName("Genre");
    for (String literal : new String[] {"NOVEL", "POEM", "PLAY"}) {
      EEnumLiteral one = ECORE.createEEnumLiteral();
      one.setName(literal);
      one.setValue(made.getELiterals().size());
      made.getELiterals().add(one);
    }
    all.getEClassifiers().add(made);
    return made;
  }

  private void named() {
    EClass named = ECORE.createEClass();
    named.setName("Named");
    named.setAbstract(true);
    name = attribute(named, "name", TEXT, 1);
    all.getEClassifiers().add(named);
    add(library, "Library", named);
    add(book, "Book", named);
    add(person, "Person", named);
    add(folder, "Folder", null);
  }

  private void add(EClass made, String called, EClass above) {
    made.setName(called);
    if (above != null) {
      made.getESuperTypes().add(above);
    }
    all.getEClassifiers().add(made);
  }

  private void fillLibrary() {
    books = reference(library, "books", book, MANY);
    books.setContainment(true);
    members = reference(library, "members", person, MANY);
    members.setContainment(true);
    reference(library, "staff", person, 2);
  }

  private void fillBook(EEnum genre) {
    pages = attribute(book, "pages", INT, 1);
    pages.setDefaultValueLiteral("100");
    attribute(book, "genre", genre, 1);
    attribute(book, "tags", TEXT, MANY);
    attribute(book, "scores", INT, 3).setUnique(false);
    attribute(book, "note", TEXT, 1).setUnsettable(true);
    oppose(reference(book, "library", library, 1), books);
    EReference next = reference(book, "next", book, 1);
    prev = reference(book, "prev", book, 1);
    oppose(next, prev);
  }

  private void fillPerson() {
    EReference staff = (EReference) library.getEStructuralFeature("staff");
    oppose(reference(person, "job", library, 1), staff);
    likes = reference(person, "likes", book, MANY);
    reference(person, "favourite", book, 1).setLowerBound(1);
  }

  private void fillFolder() {
    subs = reference(folder, "subs", folder, MANY);
    subs.setContainment(true);
    parent = reference(folder, "parent", folder, 1);
    oppose(subs, parent);
  }

  private static EAttribute attribute(EClass of, String called, EDataType type, int upper) {
    EAttribute made = ECORE.createEAttribute();
    made.setEType(type);
    return added(made, of, called, upper);
  }

  private static EReference reference(EClass of, String called, EClass type, int upper) {
    EReference made = ECORE.createEReference();
    made.setEType(type);
    return added(made, of, called, upper);
  }

  private static <T extends EStructuralFeature> T added(T made, EClass of, String called, int upper) {
    made.setName(called);
    made.setUpperBound(upper);
    of.getEStructuralFeatures().add(made);
    return made;
  }

  private static void oppose(EReference one, EReference other) {
    one.setEOpposite(other);
    other.setEOpposite(one);
  }
}
