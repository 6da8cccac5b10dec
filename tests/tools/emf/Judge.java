import java.io.BufferedReader;
import java.io.File;
import java.io.InputStreamReader;
import java.io.PrintStream;
import java.nio.charset.StandardCharsets;
import java.util.ArrayList;
import java.util.Arrays;
import java.util.HashMap;
import java.util.List;
import java.util.Map;
import org.eclipse.emf.common.util.EList;
import org.eclipse.emf.common.util.URI;
import org.eclipse.emf.ecore.EObject;
import org.eclipse.emf.ecore.EPackage;
import org.eclipse.emf.ecore.EcorePackage;
import org.eclipse.emf.ecore.resource.Resource;
import org.eclipse.emf.ecore.resource.ResourceSet;
import org.eclipse.emf.ecore.resource.impl.ResourceSetImpl;
import org.eclipse.emf.ecore.xmi.XMIResource;
import org.eclipse.emf.ecore.xmi.XMLResource;
import org.eclipse.emf.ecore.xmi.impl.XMIResourceFactoryImpl;
import org.eclipse.emf.ecore.xmi.impl.XMIResourceImpl;

/**
 * Runs commands by EMF. Each line of the standard input is a command: words with tabs between them.
 *
 * packages FILE ..        uses the packages of Ecore files for the next commands
 * read FILE ..            prints the objects of XMI files
 * sorted FILE ..          the same, with transient ends in the order of their texts
 * types FILE ..           prints the types of the features of Ecore files
 * write FROM TO OPTION .. loads a file and saves it
 * random SEED FOLDER      makes a random metamodel and random models
 *
 * An answer is lines, and "." after them. A line "error .." is an error that EMF reports for a file.
 */
public final class Judge {
  private final List<EPackage> packages = new ArrayList<>();
  private ResourceSet metamodels;
  private final PrintStream out;

  private Judge(PrintStream out) {
    this.out = out;
  }

  public static void main(String[] words) throws Exception {
    PrintStream out = new PrintStream(System.out, true, "UTF-8");
    EcorePackage.eINSTANCE.getName();
    Judge judge = new Judge(out);
    BufferedReader in = new BufferedReader(new InputStreamReader(System.in, StandardCharsets.UTF_8));
    for (String line = in.readLine(); line != null; line = in.readLine()) {
      String[] parts = line.split("\t");
      try {
        judge.run(parts[0], Arrays.asList(parts).subList(1, parts.length));
      } catch (Throwable found) {
        out.println("error " + Shown.oneLine(String.valueOf(found)));
      }
      out.println(".");
    }
  }

  private void run(String command, List<String> words) throws Exception {
    switch (command) {
      case "packages":
        loadPackages(words);
        break;
      case "read":
        read(words, false);
        break;
      case "sorted":
        read(words, true);
        break;
      case "types":
        types(words);
        break;
      case "write":
        write(words.get(0), words.get(1), words.subList(2, words.size()));
        break;
      case "random":
        new RandomModels(Long.parseLong(words.get(0)), new File(words.get(1))).make(out);
        break;
      default:
        throw new IllegalArgumentException(command);
    }
  }

  /** A resource set that knows the packages. */
  private ResourceSet fresh() {
    ResourceSet made = new ResourceSetImpl();
    made.getResourceFactoryRegistry().getExtensionToFactoryMap().put("*", new XMIResourceFactoryImpl());
    for (EPackage it : packages) {
      made.getPackageRegistry().put(it.getNsURI(), it);
    }
    return made;
  }

  private void loadPackages(List<String> files) {
    packages.clear();
    metamodels = fresh();
    for (String file : files) {
      for (EObject root : load(metamodels, file).getContents()) {
        register((EPackage) root);
      }
    }
    for (Resource it : new ArrayList<>(metamodels.getResources())) {
      tellErrors(it);
    }
  }

  private void register(EPackage found) {
    if (found.getNsURI() != null && !found.getNsURI().equals(EcorePackage.eNS_URI)) {
      packages.add(found);
      metamodels.getPackageRegistry().put(found.getNsURI(), found);
    }
    for (EPackage below : found.getESubpackages()) {
      register(below);
    }
  }

  /** Loads a file; what EMF refuses stays among the errors of the resource. */
  private static Resource load(ResourceSet set, String file) {
    URI uri = URI.createFileURI(new File(file).getAbsolutePath());
    try {
      return set.getResource(uri, true);
    } catch (RuntimeException found) {
      return set.getResource(uri, false);
    }
  }

  private void tellErrors(Resource it) {
    for (Resource.Diagnostic found : it.getErrors()) {
      out.println("error " + it.getURI().lastSegment() + ":" + found.getLine() + " " + Shown.oneLine(found.getMessage()));
    }
  }

  private void read(List<String> files, boolean sorts) {
    ResourceSet set = fresh();
    List<Resource> loaded = new ArrayList<>();
    for (String file : files) {
      loaded.add(load(set, file));
    }
    for (Resource it : loaded) {
      tellErrors(it);
      out.println("file " + it.getURI().lastSegment());
      new Shown(it, out, sorts).tell();
    }
  }

  private void types(List<String> files) {
    ResourceSet set = fresh();
    for (String file : files) {
      Resource it = load(set, file);
      tellErrors(it);
      for (EObject root : it.getContents()) {
        Shown.tellTypes((EPackage) root, out);
      }
    }
  }

  private void write(String from, String to, List<String> options) throws Exception {
    Resource source = load(fresh(), from);
    tellErrors(source);
    save(source.getContents(), new File(to), options);
  }

  /** Saves objects to a file. `ids` gives each object an xmi:id; the other options are those of EMF by name. */
  static void save(EList<EObject> contents, File to, List<String> options) throws Exception {
    Resource made = resource(to, options);
    made.getContents().addAll(contents);
    made.save(options(options));
  }

  static Resource resource(File to, List<String> options) {
    boolean hasIds = options.contains("ids");
    return new XMIResourceImpl(URI.createFileURI(to.getAbsolutePath())) {
      @Override
      protected boolean useUUIDs() {
        return hasIds;
      }
    };
  }

  static Map<Object, Object> options(List<String> names) {
    Map<Object, Object> made = new HashMap<>();
    made.put(XMLResource.OPTION_ENCODING, names.contains("latin") ? "ISO-8859-1" : names.contains("wide") ? "UTF-16" : "UTF-8");
    made.put(XMLResource.OPTION_PROCESS_DANGLING_HREF, XMLResource.OPTION_PROCESS_DANGLING_HREF_DISCARD);
    for (String name : names) {
      switch (name) {
        case "encoded":
          made.put(XMLResource.OPTION_USE_ENCODED_ATTRIBUTE_STYLE, true);
          break;
        case "defaults":
          made.put(XMLResource.OPTION_KEEP_DEFAULT_CONTENT, true);
          break;
        case "types":
          made.put(XMLResource.OPTION_SAVE_TYPE_INFORMATION, true);
          break;
        case "xmitype":
          made.put(XMIResource.OPTION_USE_XMI_TYPE, true);
          break;
        case "flat":
          made.put(XMLResource.OPTION_FORMATTED, false);
          break;
        case "narrow":
          made.put(XMLResource.OPTION_LINE_WIDTH, 40);
          break;
        case "locations":
          made.put(XMLResource.OPTION_SCHEMA_LOCATION, true);
          break;
        default:
      }
    }
    return made;
  }
}
