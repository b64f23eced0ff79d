import java.math.BigDecimal;
import java.nio.file.Files;
import java.nio.file.Paths;
import java.util.ArrayList;
import java.util.Comparator;
import java.util.List;
import java.util.StringJoiner;
import java.util.TreeMap;
import java.util.logging.Level;
import org.openstreetmap.josm.data.Bounds;
import org.openstreetmap.josm.data.osm.DataSet;
import org.openstreetmap.josm.data.osm.Node;
import org.openstreetmap.josm.data.osm.OsmPrimitive;
import org.openstreetmap.josm.data.osm.Relation;
import org.openstreetmap.josm.data.osm.Way;
import org.openstreetmap.josm.data.preferences.JosmBaseDirectories;
import org.openstreetmap.josm.data.preferences.JosmUrls;
import org.openstreetmap.josm.data.projection.ProjectionRegistry;
import org.openstreetmap.josm.data.projection.Projections;
import org.openstreetmap.josm.gui.progress.NullProgressMonitor;
import org.openstreetmap.josm.io.OsmApiException;
import org.openstreetmap.josm.io.OverpassDownloadReader;
import org.openstreetmap.josm.spi.preferences.Config;
import org.openstreetmap.josm.spi.preferences.MemoryPreferences;
import org.openstreetmap.josm.tools.Http1Client;
import org.openstreetmap.josm.tools.HttpClient;
import org.openstreetmap.josm.tools.Logging;

/**
 * Asks an Overpass server through JOSM's own reader: for each line of a file, a query, the objects that JOSM has then, as OPL
 * lines, and a line "end"; or a line "refused" with what JOSM shows. The words are the server, the file, and an OSM API, which
 * JOSM asks what it can do before it downloads anything.
 */
public class AskJosm {
    static String text(String text) {
        StringBuilder line = new StringBuilder();
        text.codePoints().forEach(c -> line.append('%').append(Integer.toHexString(c)).append('%'));
        return line.toString();
    }

    static String degrees(double value) {
        return BigDecimal.valueOf(Math.round(value * 1e7)).movePointLeft(7).stripTrailingZeros().toPlainString();
    }

    static String kind(OsmPrimitive one) {
        return one instanceof Node ? "n" : one instanceof Way ? "w" : "r";
    }

    static String line(OsmPrimitive one) {
        StringBuilder line = new StringBuilder(kind(one) + one.getUniqueId());
        line.append(" v").append(one.getVersion()).append(" c").append(one.getChangesetId());
        line.append(" t").append(one.getRawTimestamp() == 0 ? "" : one.getInstant().toString());
        line.append(" i").append(one.getUser() == null ? 0 : one.getUser().getId());
        line.append(" u").append(one.getUser() == null ? "" : text(one.getUser().getName()));
        StringJoiner tags = new StringJoiner(",");
        new TreeMap<>(one.getKeys()).forEach((key, value) -> tags.add(text(key) + "=" + text(value)));
        line.append(" T").append(tags);
        if (one instanceof Node && ((Node) one).isLatLonKnown()) {
            line.append(" x").append(degrees(((Node) one).lon())).append(" y").append(degrees(((Node) one).lat()));
        }
        if (one instanceof Way) {
            StringJoiner nodes = new StringJoiner(",");
            ((Way) one).getNodes().forEach(node -> nodes.add("n" + node.getUniqueId()));
            line.append(" N").append(nodes);
        }
        if (one instanceof Relation) {
            StringJoiner members = new StringJoiner(",");
            ((Relation) one).getMembers().forEach(member ->
                members.add(kind(member.getMember()) + member.getUniqueId() + "@" + text(member.getRole())));
            line.append(" M").append(members);
        }
        return line.toString();
    }

    public static void main(String[] words) throws Exception {
        Config.setPreferencesInstance(new MemoryPreferences());
        Config.getPref().put("osm-server.url", words[2]);
        Config.setBaseDirectoriesProvider(JosmBaseDirectories.getInstance());
        Config.setUrlsProvider(JosmUrls.getInstance());
        ProjectionRegistry.setProjection(Projections.getProjectionByCode("EPSG:3857"));
        java.util.logging.Logger.getLogger("").setLevel(Level.SEVERE);
        Logging.setLogLevel(Logging.LEVEL_ERROR);
        HttpClient.setFactory(Http1Client::new);
        for (String query : Files.readAllLines(Paths.get(words[1]))) {
            try {
                Bounds bounds = new Bounds(52.4, 13.3, 52.6, 13.5);
                DataSet data = new OverpassDownloadReader(bounds, words[0], query).parseOsm(NullProgressMonitor.INSTANCE);
                List<OsmPrimitive> all = new ArrayList<>(data.allPrimitives());
                all.sort(Comparator.comparing((OsmPrimitive one) -> one.getType().ordinal()).thenComparing(OsmPrimitive::getUniqueId));
                for (OsmPrimitive one : all) {
                    // (JOSM has a stand-in for what others list and isn't there)
                    if (!one.isIncomplete()) {
                        System.out.println(line(one));
                    }
                }
                System.out.println("end");
            } catch (OsmApiException error) {
                System.out.println("refused " + error.getResponseCode() + " " + error.getErrorHeader());
            } catch (Exception error) {
                System.out.println("refused " + error.getMessage().replace("\n", " "));
            }
        }
        System.exit(0);
    }
}
