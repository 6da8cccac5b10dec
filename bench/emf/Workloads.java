import java.io.IOException;
import java.util.List;
import java.util.Objects;
import org.eclipse.emf.ecore.EObject;
import org.eclipse.emf.ecore.resource.Resource;

/**
 * Workloads of {@code bench/work}, by the calls of a session.
 *
 * <p>A method makes one call for each line of the script of the same name, in the same order. It compares each value that it reads with the
 * answer in the workload, and at its end what the calls have made.
 */
final class Workloads {
  private final Library metamodel;
  private final Session session;

  /** Makes workloads over the metamodel of a session. */
  Workloads(Library metamodel, Session session) {
    this.metamodel = metamodel;
    this.session = session;
  }

  /** Does the work of a workload. */
  void run(String workload, int size) throws IOException {
    switch (workload) {
      case "attributes":
        attributes(size);
        break;
      case "tree":
        tree(size);
        break;
      case "tree_up":
        treeUp(size);
        break;
      case "books":
        books(size);
        break;
      case "deleted":
        deleted(size);
        break;
      case "kept":
        kept(size);
        break;
      default:
        throw new IllegalArgumentException(workload);
    }
  }

  private void attributes(int size) {
    for (int i = 0; i < size; i++) {
      EObject book = session.create(metamodel.book);
      String name = "Book " + i;
      Integer pages = i;
      session.set(book, metamodel.name, name);
      session.set(book, metamodel.pages, pages);
      expect(name, session.get(book, metamodel.name));
      expect(pages, session.get(book, metamodel.pages));
    }
  }

  private void tree(int size) {
    session.create(metamodel.folder);
    for (int i = 1; i <= size; i++) {
      EObject made = session.create(metamodel.folder);
      EObject parent = session.object((i - 1) / 2);
      expect(true, session.add(parent, metamodel.subs, made));
      expect(parent, session.container(made));
      expect(parent, session.get(made, metamodel.parent));
    }
  }

  private void treeUp(int size) {
    session.create(metamodel.folder);
    for (int i = 1; i <= size; i++) {
      EObject made = session.create(metamodel.folder);
      EObject parent = session.object((i - 1) / 2);
      session.set(made, metamodel.parent, parent);
      expect(parent, session.container(made));
    }
    expect(size < 2 ? size : 2, Session.list(session.object(0), metamodel.subs).size());
  }

  private void books(int size) {
    EObject library = null;
    EObject before = null;
    for (int i = 0; i < size; i++) {
      boolean isFirst = i % 100 == 0;
      if (isFirst) {
        library = session.create(metamodel.library);
      }
      EObject book = session.create(metamodel.book);
      session.set(book, metamodel.name, "Book " + i);
      expect(true, session.add(library, metamodel.books, book));
      if (isFirst) {
        expect(null, session.get(book, metamodel.prev));
      } else {
        session.set(book, metamodel.prev, before);
      }
      before = book;
    }
    expect((size - 1) % 100 + 1, Session.list(library, metamodel.books).size());
  }

  private void deleted(int size) {
    Resource resource = session.resource("http://m.example/library");
    EObject library = session.create(metamodel.library);
    expect(true, session.add(resource, library));
    for (int i = 0; i < size; i++) {
      EObject book = session.create(metamodel.book);
      expect(true, session.add(library, metamodel.books, book));
      EObject person = session.create(metamodel.person);
      expect(true, session.add(library, metamodel.members, person));
      expect(true, session.add(person, metamodel.likes, book));
    }
    expect(2 * size, library.eContents().size());
    session.delete(library);
    expect(true, resource.getContents().isEmpty());
    expect(null, library.eResource());
  }

  private void kept(int size) throws IOException {
    Resource resource = session.resource("http://m.example/library");
    Resource copy = session.resource("http://m.example/copy");
    EObject library = session.create(metamodel.library);
    expect(true, session.add(resource, library));
    for (int i = 1; i <= size; i++) {
      EObject book = session.create(metamodel.book);
      session.set(book, metamodel.name, "Book " + i);
      session.set(book, metamodel.pages, 100 + i);
      expect(true, session.add(library, metamodel.books, book));
    }
    session.load(copy, session.save(resource));
    List<EObject> loaded = Session.list(copy.getContents().get(0), metamodel.books);
    expect(size, loaded.size());
    expect("Book " + size, loaded.get(size - 1).eGet(metamodel.name));
    expect(100 + size, loaded.get(size - 1).eGet(metamodel.pages));
  }

  private static void expect(Object wanted, Object found) {
    if (!Objects.equals(wanted, found)) {
      throw new IllegalStateException("expected " + wanted + ", found " + found);
    }
  }
}
