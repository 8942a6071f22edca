import java.io.BufferedReader;
import java.io.File;
import java.nio.ByteBuffer;
import java.nio.charset.StandardCharsets;
import java.nio.file.Files;
import java.nio.file.Path;
import java.sql.DriverManager;
import java.sql.SQLException;
import java.util.ArrayList;
import java.util.List;
import java.util.Properties;
import java.util.concurrent.TimeoutException;
import org.postgresql.PGConnection;
import org.postgresql.PGProperty;
import org.postgresql.replication.LogSequenceNumber;
import org.postgresql.replication.PGReplicationStream;

/**
 * Tests a consumer of a row-filtered stream with pgjdbc: it sees a row arrive that is committed, its connection is cut, and
 * it loses nothing of what is committed meanwhile.
 *
 *     java -cp /usr/share/java/postgresql.jar examples/ConsumerTest.java
 *
 * It is run in the folder that contains examples/. It starts pgshard publish with examples/shop.sql, and pgshard front
 * before it: those of this folder, or otherwise those on the path. The environment variable PGSHARD names another program
 * to run as publish.
 */
public class ConsumerTest {
    /** What is committed: an order for london, which moves to tokyo, and another order for london. */
    static final List<String> COMMITS = List.of(
        "COMMIT INSERT orders (1, 20, 500);", "COMMIT UPDATE orders (1) (1, 250, 500);",
        "COMMIT INSERT orders (4, 30, 1200);");

    /** What london is to get of it: the end of each transaction, and its changes. */
    static final List<String> EXPECTED =
        List.of("0/80 insert (1, 20, 500)", "0/C0 delete (1, 20, 500)", "0/100 insert (4, 30, 1200)");

    static final int PATIENCE = 60_000;

    /** What is under test here: it keeps transactions, and confirms what it has kept. */
    static class Consumer {
        final int port;
        final List<String> kept = new ArrayList<>();
        LogSequenceNumber end = LogSequenceNumber.valueOf(0);
        List<String> changes = new ArrayList<>();
        java.sql.Connection connection;
        PGReplicationStream stream;

        Consumer(int port) throws Exception {
            this.port = port;
            connect();
        }

        /** Starts the stream after the last transaction that is kept. After a cut the slot is in use for a moment. */
        void connect() throws Exception {
            Properties given = new Properties();
            PGProperty.USER.set(given, "postgres");
            PGProperty.REPLICATION.set(given, "database");
            PGProperty.PREFER_QUERY_MODE.set(given, "simple");
            PGProperty.ASSUME_MIN_SERVER_VERSION.set(given, "15");
            long until = System.currentTimeMillis() + PATIENCE;
            while (true) {
                connection = DriverManager.getConnection("jdbc:postgresql://127.0.0.1:" + port + "/shop", given);
                try {
                    stream = connection.unwrap(PGConnection.class).getReplicationAPI().replicationStream().logical()
                        .withSlotName("london").withStartPosition(end)
                        .withSlotOption("proto_version", 1).withSlotOption("publication_names", "europe").start();
                    return;
                } catch (SQLException fault) {
                    connection.close();
                    if (!"55006".equals(fault.getSQLState()) || System.currentTimeMillis() > until) {
                        throw fault;
                    }
                    Thread.sleep(100);
                }
            }
        }

        /** Takes one message, and answers its letter. What a transaction begins, its Commit completes. */
        char read() throws Exception {
            ByteBuffer message = stream.readPending();
            for (long until = System.currentTimeMillis() + PATIENCE; message == null; message = stream.readPending()) {
                if (System.currentTimeMillis() > until) {
                    throw new TimeoutException("no message");
                }
                Thread.sleep(10);
            }
            char letter = (char) message.get();
            switch (letter) {
                case 'B' -> changes = new ArrayList<>();
                case 'I' -> changes.add("insert " + row(message));
                case 'D' -> changes.add("delete " + row(message));
                case 'C' -> {
                    end = LogSequenceNumber.valueOf(message.getLong(message.position() + 9));
                    kept.add(end.asString() + " " + String.join(", ", changes));
                    stream.setFlushedLSN(end);
                    stream.forceUpdateStatus();
                }
                default -> { }
            }
            return letter;
        }

        /** Loses the connection as a network does it, without a word, and all that was read of a transaction. */
        void cut() throws Exception {
            connection.abort(Runnable::run);
        }
    }

    /** The row of an Insert or a Delete, after the table's OID and the letter before the row. */
    static String row(ByteBuffer message) {
        message.position(message.position() + 5);
        List<String> values = new ArrayList<>();
        for (int left = message.getShort(); left > 0; left--) {
            if (message.get() == 'n') {
                values.add("null");
            } else {
                byte[] text = new byte[message.getInt()];
                message.get(text);
                values.add(new String(text, StandardCharsets.UTF_8));
            }
        }
        return "(" + String.join(", ", values) + ")";
    }

    /** A program that is started, and what it reads and writes. */
    static class Started {
        final Process process;
        final BufferedReader lines;

        Started(String... words) throws Exception {
            process = new ProcessBuilder(words).redirectError(ProcessBuilder.Redirect.INHERIT).start();
            lines = process.inputReader(StandardCharsets.UTF_8);
        }

        void say(String text) throws Exception {
            process.getOutputStream().write(text.getBytes(StandardCharsets.UTF_8));
            process.getOutputStream().flush();
        }

        /** Waits for its line "listening P". */
        String port() throws Exception {
            return lines.readLine().split(" ")[1];
        }
    }

    /** pgshard publish with a front before it, and the port of the front. */
    static class Publisher {
        final Started publish;
        final Started front;
        final int port;

        Publisher() throws Exception {
            String named = System.getenv().getOrDefault("PGSHARD", "pgshard");
            String script = new File("./pgshard").exists() ? "./pgshard" : named;
            String pgshard = named.equals("pgshard") ? script : named;
            String catalog = "examples/shop.sql";
            Process make = new ProcessBuilder(pgshard, "make").redirectInput(new File(catalog))
                .redirectError(ProcessBuilder.Redirect.INHERIT).start();
            String certificates = new String(make.getInputStream().readAllBytes(), StandardCharsets.UTF_8);
            publish = new Started(pgshard, "publish", "--port", "0");
            publish.say(Files.readString(Path.of(catalog)) + "%%\n" + certificates + "%%\n");
            front = new Started(script, "front", "--port", "0", "--backend", publish.port(), "--catalog", catalog);
            port = Integer.parseInt(front.port());
        }

        /** Makes a commit, and waits for the answer. */
        void commit(String line) throws Exception {
            publish.say(line + "\n");
            String answer = publish.lines.readLine();
            if (answer == null || !answer.startsWith("commit ")) {
                throw new AssertionError("publish answers " + line + " with " + answer);
            }
        }

        void stop() {
            front.process.destroyForcibly();
            publish.process.destroyForcibly();
        }
    }

    public static void main(String[] words) throws Exception {
        Publisher publisher = new Publisher();
        boolean isWhole;
        try {
            Consumer consumer = new Consumer(publisher.port);
            publisher.commit(COMMITS.get(0));
            while (consumer.read() != 'C') { }
            publisher.commit(COMMITS.get(1));
            while (consumer.read() != 'D') { }
            consumer.cut();
            System.out.println("cut after " + consumer.kept.size() + " transaction, in the second");
            publisher.commit(COMMITS.get(2));
            consumer.connect();
            while (consumer.kept.size() < EXPECTED.size()) {
                consumer.read();
            }
            consumer.connection.close();
            consumer.kept.forEach(System.out::println);
            isWhole = consumer.kept.equals(EXPECTED);
            System.out.println(isWhole ? "nothing is lost" : "expected: " + EXPECTED);
        } finally {
            publisher.stop();
        }
        System.exit(isWhole ? 0 : 1);
    }
}
