// A bot that walks round a square, on the JDK's own server: java Bot.java PORT [chunked]
import com.sun.net.httpserver.HttpServer;
import java.net.InetSocketAddress;
import java.nio.charset.StandardCharsets;
import java.util.concurrent.Executors;
import java.util.regex.Pattern;

public class Bot {
    static final String[] STEPS = {"up", "left", "down", "right"};
    static final Pattern TURN = Pattern.compile("\"turn\":([0-9]+)");

    public static void main(String[] words) throws Exception {
        var place = new InetSocketAddress("127.0.0.1", Integer.parseInt(words[0]));
        var server = HttpServer.create(place, 64);
        server.setExecutor(Executors.newFixedThreadPool(8));
        server.createContext("/", exchange -> {
            var text = new String(exchange.getRequestBody().readAllBytes(), StandardCharsets.UTF_8);
            var body = "{\"apiversion\":\"1\"}";
            if (exchange.getRequestURI().getPath().endsWith("/move")) {
                var turn = TURN.matcher(text);
                turn.find();
                body = "{\"move\":\"" + STEPS[Integer.parseInt(turn.group(1)) % 4] + "\"}";
            }
            var bytes = body.getBytes(StandardCharsets.UTF_8);
            exchange.getResponseHeaders().set("Content-Type", "application/json");
            exchange.sendResponseHeaders(200, words.length > 1 ? 0 : bytes.length);
            exchange.getResponseBody().write(bytes);
            exchange.close();
        });
        server.start();
    }
}
