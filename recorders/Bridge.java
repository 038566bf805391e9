import java.io.BufferedReader;
import java.io.BufferedWriter;
import java.io.IOException;
import java.io.InputStreamReader;
import java.io.OutputStream;
import java.io.OutputStreamWriter;
import java.io.PrintStream;
import java.io.Writer;
import java.net.StandardProtocolFamily;
import java.net.UnixDomainSocketAddress;
import java.nio.channels.Channels;
import java.nio.channels.ServerSocketChannel;
import java.nio.channels.SocketChannel;
import java.nio.charset.StandardCharsets;
import java.nio.file.Files;
import java.nio.file.Path;
import java.sql.Connection;
import java.sql.DriverManager;
import java.sql.ResultSet;
import java.sql.SQLException;
import java.sql.Statement;
import java.util.Map;
import java.util.TreeMap;
import java.util.concurrent.ConcurrentHashMap;
import java.util.concurrent.atomic.AtomicInteger;

/**
 * Holds databases in one JVM for a recorder, and a JDBC connection for each of its sockets.
 *
 * <p>usage: java -cp CLASSES:JARS Bridge SOCKET
 *
 * <p>It listens at the path SOCKET, prints a line when it does, and ends when its standard input ends, so that it never
 * outlives the recorder. A request is one line, with fields separated by tabs. An answer is a line for each row, which
 * begins with {@code +}, and a last line: {@code .}, or {@code !} with the SQL state and the message of an error. The
 * values of a row are separated by tabs; a null is {@code \N}.
 *
 * <pre>
 * open URL USER PASSWORD COMMITS   opens the connection; COMMITS: each statement commits. The row has its number
 * isolation LEVEL                  sets the isolation level, a number of java.sql.Connection
 * version                          the version that the database reports
 * ask SQL                          the rows of the result, or one row with the update count
 * note SQL                         the update count, and then the rows that called {@link #note}
 * commit, rollback                 ends the transaction
 * waits NUMBER FRAME               1 if that connection's statement waits, otherwise 0
 * open-ones NUMBER..               how many of these connections are still open
 * </pre>
 */
public final class Bridge {
    /** How long a thread has to be parked until its statement waits, with a known frame and without one. */
    private static final long QUIET = 2_000_000L, QUIET_ANYWHERE = 30_000_000L;
    /** How long the databases have to close. */
    private static final long ENDING = 5_000L;

    private static final Map<Integer, Session> SESSIONS = new ConcurrentHashMap<>();
    private static final AtomicInteger NUMBERS = new AtomicInteger();
    private static final ThreadLocal<Map<Integer, Looked>> NOTES = ThreadLocal.withInitial(TreeMap::new);
    /** When a statement, a commit or a rollback of any session ended last. */
    private static volatile long ended = System.nanoTime();

    private Bridge() {}

    /** The version of a row that a statement looked at, and whether it matched. */
    private static final class Looked {
        final int txn, op;
        boolean matched;

        Looked(int txn, int op) {
            this.txn = txn;
            this.op = op;
        }
    }

    /**
     * A function for SQL: notes that the current statement looks at a row, or with {@code matches} that the row matches.
     * An embedded database runs a statement in its caller's thread. If it looks at a row again, the last note counts.
     *
     * @return 1
     */
    public static int note(int matches, int id, int txn, int op) {
        Map<Integer, Looked> notes = NOTES.get();
        if (matches == 0) {
            notes.put(id, new Looked(txn, op));
        } else {
            notes.get(id).matched = true;
        }
        return 1;
    }

    public static void main(String[] arguments) throws IOException {
        Path path = Path.of(arguments[0]);
        ServerSocketChannel server = ServerSocketChannel.open(StandardProtocolFamily.UNIX);
        server.bind(UnixDomainSocketAddress.of(path));
        System.out.println("ready");
        // (HSQLDB prints its own notes on standard output.)
        System.setOut(new PrintStream(OutputStream.nullOutputStream()));
        daemon(() -> endWithParent(path));
        while (true) {
            SocketChannel channel = server.accept();
            daemon(new Session(channel));
        }
    }

    private static Thread daemon(Runnable job) {
        Thread thread = new Thread(job);
        thread.setDaemon(true);
        thread.start();
        return thread;
    }

    private static void endWithParent(Path path) {
        try {
            while (System.in.read() >= 0) {}
            Files.deleteIfExists(path);
        } catch (IOException closed) {
            // (The recorder has ended.)
        }
        daemon(() -> {
            sleep(ENDING);
            Runtime.getRuntime().halt(0);
        });
        System.exit(0);
    }

    private static void sleep(long milliseconds) {
        try {
            Thread.sleep(milliseconds);
        } catch (InterruptedException early) {
            Thread.currentThread().interrupt();
        }
    }

    /** A socket of the recorder, with its JDBC connection, served by one thread. */
    private static final class Session implements Runnable {
        private final int number = NUMBERS.incrementAndGet();
        private final SocketChannel channel;
        private Connection connection;
        private volatile Thread thread;
        private volatile boolean busy;
        /** Since when the thread has been parked while nothing ended. */
        private long parked;

        Session(SocketChannel channel) {
            this.channel = channel;
        }

        @Override
        public void run() {
            thread = Thread.currentThread();
            SESSIONS.put(number, this);
            try (channel;
                    BufferedReader in = new BufferedReader(
                            new InputStreamReader(Channels.newInputStream(channel), StandardCharsets.UTF_8));
                    Writer out = new BufferedWriter(
                            new OutputStreamWriter(Channels.newOutputStream(channel), StandardCharsets.UTF_8))) {
                for (String request; (request = in.readLine()) != null; ) {
                    out.write(answered(request.split("\t", -1)));
                    out.flush();
                }
            } catch (IOException closed) {
                // (The recorder has closed the socket.)
            } finally {
                close();
                SESSIONS.remove(number);
            }
        }

        /** The answer to a request. Errors are answers too: HSQLDB may run out of stack when it looks for deadlocks. */
        private String answered(String[] request) {
            StringBuilder rows = new StringBuilder();
            busy = true;
            try {
                carryOut(request, rows);
                return rows.append(".\n").toString();
            } catch (SQLException error) {
                return "!" + error.getSQLState() + " " + oneLine(error.getMessage()) + "\n";
            } catch (RuntimeException | StackOverflowError error) {
                return "!XX000 " + oneLine(error.toString()) + "\n";
            } finally {
                busy = false;
            }
        }

        private void carryOut(String[] request, StringBuilder rows) throws SQLException {
            switch (request[0]) {
                case "open" -> open(request, rows);
                case "isolation" -> connection.setTransactionIsolation(Integer.parseInt(request[1]));
                case "version" -> row(rows, connection.getMetaData().getDatabaseProductVersion());
                case "waits" -> row(rows, waits(SESSIONS.get(Integer.valueOf(request[1])), request[2]) ? 1 : 0);
                case "open-ones" -> row(rows, openOnes(request));
                default -> {
                    try {
                        execute(request, rows);
                    } finally {
                        ended = System.nanoTime();
                    }
                }
            }
        }

        private void open(String[] request, StringBuilder rows) throws SQLException {
            connection = DriverManager.getConnection(request[1], request[2], request[3]);
            connection.setAutoCommit(!request[4].isEmpty());
            row(rows, number);
        }

        private void execute(String[] request, StringBuilder rows) throws SQLException {
            switch (request[0]) {
                case "ask" -> ask(request[1], rows);
                case "note" -> {
                    NOTES.get().clear();
                    ask(request[1], rows);
                    NOTES.get().forEach((id, it) -> row(rows, id, it.txn, it.op, it.matched ? 1 : 0));
                }
                case "commit" -> connection.commit();
                case "rollback" -> connection.rollback();
                default -> throw new IllegalArgumentException("no request: " + request[0]);
            }
        }

        private void ask(String sql, StringBuilder rows) throws SQLException {
            try (Statement statement = connection.createStatement()) {
                if (!statement.execute(sql)) {
                    row(rows, Math.max(statement.getUpdateCount(), 0));
                    return;
                }
                ResultSet result = statement.getResultSet();
                Object[] values = new Object[result.getMetaData().getColumnCount()];
                while (result.next()) {
                    for (int column = 0; column < values.length; column++) {
                        values[column] = result.getString(column + 1);
                    }
                    row(rows, values);
                }
            }
        }

        /** Ends the transaction; a connection that waits can't be closed before the one that it waits for. */
        private void close() {
            try {
                if (connection != null) {
                    if (!connection.getAutoCommit()) {
                        connection.rollback();
                    }
                    connection.close();
                }
            } catch (SQLException | RuntimeException lost) {
                // (The database has closed it.)
            }
            ended = System.nanoTime();
        }

        /** Whether the thread is parked, in a method with this name if it isn't empty, and has been for some time. */
        private synchronized boolean isWaiting(String frame) {
            long quiet = frame.isEmpty() ? QUIET_ANYWHERE : QUIET;
            while (busy && thread.getState() != Thread.State.RUNNABLE && isIn(frame)) {
                long now = System.nanoTime();
                // A statement that waited before something ended may be about to go on.
                if (parked == 0 || parked < ended) {
                    parked = now;
                }
                if (now - parked >= quiet) {
                    return true;
                }
                sleep(1);
            }
            parked = 0;
            return false;
        }

        private boolean isIn(String frame) {
            if (frame.isEmpty()) {
                return true;
            }
            for (StackTraceElement at : thread.getStackTrace()) {
                if ((at.getClassName() + "." + at.getMethodName()).equals(frame)) {
                    return true;
                }
            }
            return false;
        }
    }

    private static boolean waits(Session session, String frame) {
        return session != null && session.isWaiting(frame);
    }

    private static long openOnes(String[] request) {
        long count = 0;
        for (int place = 1; place < request.length; place++) {
            count += SESSIONS.containsKey(Integer.valueOf(request[place])) ? 1 : 0;
        }
        return count;
    }

    private static void row(StringBuilder rows, Object... values) {
        char before = '+';
        for (Object value : values) {
            rows.append(before).append(value == null ? "\\N" : oneLine(value.toString()));
            before = '\t';
        }
        rows.append('\n');
    }

    private static String oneLine(String text) {
        return text == null ? "" : text.replaceAll("\\s+", " ");
    }
}
