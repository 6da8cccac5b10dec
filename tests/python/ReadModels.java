import java.io.File;
import java.util.ArrayList;
import java.util.List;
import java.util.Map;
import org.eclipse.emf.common.util.TreeIterator;
import org.eclipse.emf.common.util.URI;
import org.eclipse.emf.ecore.EObject;
import org.eclipse.emf.ecore.EPackage;
import org.eclipse.emf.ecore.EcorePackage;
import org.eclipse.emf.ecore.resource.Resource;
import org.eclipse.emf.ecore.resource.ResourceSet;
import org.eclipse.emf.ecore.resource.impl.ResourceSetImpl;
import org.eclipse.emf.ecore.util.EcoreUtil;
import org.eclipse.emf.ecore.xmi.impl.EcoreResourceFactoryImpl;
import org.eclipse.emf.ecore.xmi.impl.XMIResourceFactoryImpl;

/**
 * Reads models by EMF: first Ecore files, then after "--" the files of their instances. For each instance it prints the name of the file, the
 * numbers of objects, of errors and of unresolved proxies, and the value of the first root's first attribute that is set.
 */
public class ReadModels {
    public static void main(String[] words) {
        ResourceSet set = new ResourceSetImpl();
        Map<String, Object> factories = set.getResourceFactoryRegistry().getExtensionToFactoryMap();
        factories.put("ecore", new EcoreResourceFactoryImpl());
        factories.put("*", new XMIResourceFactoryImpl());
        EcorePackage.eINSTANCE.eClass();
        List<Resource> models = new ArrayList<>();
        boolean isModel = false;
        for (String word : words) {
            if (word.equals("--")) {
                isModel = true;
            } else {
                Resource read = set.getResource(URI.createFileURI(new File(word).getAbsolutePath()), true);
                if (isModel) {
                    models.add(read);
                } else {
                    register(set, read);
                }
            }
        }
        EcoreUtil.resolveAll(set);
        for (Resource model : models) {
            print(model);
        }
    }

    /** Makes the packages of an Ecore file known by their URIs. */
    private static void register(ResourceSet set, Resource read) {
        for (TreeIterator<EObject> all = read.getAllContents(); all.hasNext();) {
            EObject next = all.next();
            if (next instanceof EPackage) {
                set.getPackageRegistry().put(((EPackage) next).getNsURI(), next);
            }
        }
    }

    private static void print(Resource model) {
        int objects = 0;
        int proxies = 0;
        for (TreeIterator<EObject> all = model.getAllContents(); all.hasNext();) {
            EObject next = all.next();
            objects++;
            for (EObject referred : next.eCrossReferences()) {
                proxies += referred.eIsProxy() ? 1 : 0;
            }
        }
        EObject root = model.getContents().get(0);
        Object first = root.eClass().getEAllAttributes().stream().filter(root::eIsSet).map(root::eGet).findFirst().orElse(null);
        System.out.println(model.getURI().lastSegment() + " " + objects + " " + model.getErrors().size() + " " + proxies + " " + first);
    }
}
