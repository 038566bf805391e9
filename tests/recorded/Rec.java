/*
 * Another recorder over JDBC, written apart from recorders/: tests/jdbc compares the reports of both.
 *
 * usage: java -cp CLASSES:JARS Rec PRODUCT SCRIPTS HISTORIES
 *
 * Plays each script SCRIPTS/NAME.txt at each level of the databases whose names begin with PRODUCT, one after another, in
 * memory, and writes HISTORIES/DATABASE.LEVEL.NAME.json, where the level has `_` in place of blanks.
 */
import java.io.*;
import java.nio.file.*;
import java.sql.*;
import java.util.*;
import java.util.concurrent.*;
import java.util.concurrent.atomic.*;
import java.util.regex.*;

public class Rec {
    // ---------------------------------------------------------------- databases
    record Level(String name, String sql, int jdbc) {}
    record Db(String name, String url, List<Level> levels) {}
    static final Level RC = new Level("read_committed", null, Connection.TRANSACTION_READ_COMMITTED);
    static final Level RR = new Level("repeatable_read", null, Connection.TRANSACTION_REPEATABLE_READ);
    static final Level SER = new Level("serializable", null, Connection.TRANSACTION_SERIALIZABLE);
    static final Level SNAP = new Level("snapshot", "SET SESSION CHARACTERISTICS AS TRANSACTION ISOLATION LEVEL SNAPSHOT", 0);
    static final Level RU = new Level("read_uncommitted", null, Connection.TRANSACTION_READ_UNCOMMITTED);
    static final List<Db> DBS = List.of(
        new Db("hsqldb-locks", "jdbc:hsqldb:mem:%s;hsqldb.tx=locks", List.of(RC, RR, SER)),
        new Db("hsqldb-mvlocks", "jdbc:hsqldb:mem:%s;hsqldb.tx=mvlocks", List.of(RC, RR, SER)),
        new Db("hsqldb-mvcc", "jdbc:hsqldb:mem:%s;hsqldb.tx=mvcc", List.of(RC, RR, SER)),
        new Db("h2", "jdbc:h2:mem:%s;DB_CLOSE_DELAY=-1;LOCK_TIMEOUT=10000", List.of(RU, RC, RR, SNAP, SER)),
        new Db("derby", "jdbc:derby:memory:%s;create=true", List.of(RU, RC, RR, SER)));

    static Connection connect(Db db, String base, Level level) throws SQLException {
        Connection c = DriverManager.getConnection(db.url.formatted(base), "SA", "");
        if (level != null) {
            if (level.sql != null) try (java.sql.Statement s = c.createStatement()) { s.execute(level.sql); }
            else c.setTransactionIsolation(level.jdbc);
        }
        c.setAutoCommit(false);
        return c;
    }

    static final String[] TABLES = {"test", "stock"};
    static final String DDL = "create table %s (id integer primary key, v integer not null check (v between -1000000000 and 1000000000), txn integer default 0 not null, op integer default 0 not null,"
        + " gone boolean default false not null, pv integer, pt integer, po integer)";

    // ---------------------------------------------------------------- statements
    static final Pattern SEL = Pattern.compile("select \\* from (\\w+)(?: where (.+))?");
    static final Pattern UPD = Pattern.compile("update (\\w+) set value = (.+?)(?: where (.+))?");
    static final Pattern INS = Pattern.compile("insert into (\\w+) \\(id, value\\) values \\((-?\\d+), (-?\\d+)\\)");
    static final Pattern DEL = Pattern.compile("delete from (\\w+)(?: where (.+))?");
    static final Pattern IDS = Pattern.compile("(id = \\d+|id in \\([\\d, ]+\\))(?: and .+)?");

    static String sql(String p) {
        return p.replaceAll("value % (\\d+)", "mod(v, $1)").replaceAll("\\bvalue\\b", "v");
    }
    /** The part of a condition by which ids alone decide, or null where values decide. Only `and` may follow. */
    static String idPart(String p) {
        if (p == null || p.contains(" or ")) return null;
        Matcher m = IDS.matcher(p);
        return m.matches() ? m.group(1) : null;
    }

    // ---------------------------------------------------------------- what an update looks at
    /** An embedded database carries out a statement in its caller's thread, and calls this for each row that it looks at. */
    static final ThreadLocal<Map<Integer, Ver>> SEEN = ThreadLocal.withInitial(HashMap::new);
    public static int note(int id, int txn, int op) {
        if (txn == 0) SEEN.get().remove(id); else SEEN.get().put(id, new Ver(txn, op));
        return 1;
    }
    static String function(Db db) {
        return db.name.equals("h2") ? "create alias note for \"Rec.note\""
            : db.name.equals("derby") ? "create function note(id int, txn int, op int) returns int parameter style java no sql language java external name 'Rec.note'"
            : "create function note(id int, txn int, op int) returns int not deterministic no sql language java external name 'CLASSPATH:Rec.note'";
    }

    // ---------------------------------------------------------------- what is noted
    record Ver(int txn, int op) {}
    record Row(String table, int id) implements Comparable<Row> {
        public int compareTo(Row other) { int by = table.compareTo(other.table); return by != 0 ? by : id - other.id; }
        String printed() { return "[\"" + table + "\"," + id + ","; }
    }
    static final class Op {
        String statement; TreeMap<Row, Ver> view = new TreeMap<>();
        TreeMap<Row, Integer> rows = new TreeMap<>(), writes = new TreeMap<>();
    }
    static final class Txn {
        final int no; volatile boolean committed; long place; final List<Op> ops = new ArrayList<>();
        final Map<Row, Ver> own = new HashMap<>();
        Txn(int no) { this.no = no; }
        boolean wrote() { return !own.isEmpty(); }
    }

    /** Carries out a statement on a connection, and answers what the history says of it. A failure throws. */
    static Op run(Connection c, Txn t, String text) throws SQLException {
        Op o = new Op();
        o.statement = text;
        int k = t.ops.size() + 1;
        Matcher m;
        try (java.sql.Statement s = c.createStatement()) {
            if ((m = SEL.matcher(text)).matches()) {
                String table = m.group(1), p = m.group(2), ids = idPart(p);
                ResultSet r = s.executeQuery("select id, v, txn, op, gone, case when " + (p == null ? "1 = 1" : sql(p))
                    + " then 1 else 0 end from " + table + (ids == null ? "" : " where " + ids));
                while (r.next()) {
                    int id = r.getInt(1), v = r.getInt(2), x = r.getInt(3);
                    if (x != 0) o.view.put(new Row(table, id), new Ver(x, r.getInt(4)));
                    if (!r.getBoolean(5) && r.getInt(6) == 1) o.rows.put(new Row(table, id), v);
                }
            } else if ((m = UPD.matcher(text)).matches() || (m = DEL.matcher(text)).matches()) {
                boolean del = text.startsWith("delete");
                String table = m.group(1), p = m.group(del ? 2 : 3), ids = idPart(p);
                Set<Row> old = new HashSet<>();
                SEEN.get().clear();
                int n = s.executeUpdate("update " + table + " set pv = v, pt = txn, po = op, txn = " + t.no + ", op = " + k
                    + (del ? ", gone = true" : ", v = " + sql(m.group(2)))
                    + " where " + (ids == null ? "" : ids + " and ") + "case when note(id, txn, op) = 0 then 0 when gone = false"
                    + (p == null ? "" : " and (" + sql(p) + ")") + " then 1 else 0 end = 1");
                if (n > 0) {
                    ResultSet r = s.executeQuery("select id, pv, pt, po, v from " + table + " where txn = " + t.no + " and op = " + k
                        + (ids == null ? "" : " and " + ids));
                    while (r.next()) {
                        Row row = new Row(table, r.getInt(1));
                        int x = r.getInt(3);
                        if (x != 0) { o.view.put(row, new Ver(x, r.getInt(4))); old.add(row); }
                        o.rows.put(row, r.getInt(2));
                        o.writes.put(row, del ? null : (Integer) r.getInt(5));
                    }
                    if (o.rows.size() != n) throw new SQLException("recorder: " + n + " changed, " + o.rows.size() + " found again");
                }
                SEEN.get().forEach((id, ver) -> o.view.putIfAbsent(new Row(table, id), ver)); // rows that were looked at and not changed: noted in the statement
                o.rows.keySet().forEach(row -> { if (!old.contains(row)) o.view.remove(row); });
            } else if ((m = INS.matcher(text)).matches()) {
                String table = m.group(1);
                int id = Integer.parseInt(m.group(2)), v = Integer.parseInt(m.group(3));
                int n = s.executeUpdate("update " + table + " set pv = v, pt = txn, po = op, txn = " + t.no + ", op = " + k
                    + ", gone = false, v = " + v + " where id = " + id + " and gone = true");
                if (n == 1) {
                    ResultSet r = s.executeQuery("select pt, po from " + table + " where id = " + id);
                    r.next();
                    if (r.getInt(1) != 0) o.view.put(new Row(table, id), new Ver(r.getInt(1), r.getInt(2)));
                } else {
                    s.executeUpdate("insert into " + table + " (id, v, txn, op) values (" + id + ", " + v + ", " + t.no + ", " + k + ")");
                }
                o.writes.put(new Row(table, id), v);
            } else throw new IllegalArgumentException("no statement: " + text);
        }
        t.own.forEach(o.view::putIfAbsent);
        t.ops.add(o);
        for (Row row : o.writes.keySet()) t.own.put(row, new Ver(t.no, k));
        return o;
    }

    // ---------------------------------------------------------------- the file
    static TreeMap<Row, Integer> tables(Connection c) throws SQLException {
        TreeMap<Row, Integer> rows = new TreeMap<>();
        for (String table : TABLES) {
            try (java.sql.Statement s = c.createStatement();
                 ResultSet r = s.executeQuery("select id, v from " + table + " where gone = false")) {
                while (r.next()) rows.put(new Row(table, r.getInt(1)), r.getInt(2));
            }
        }
        c.commit();
        return rows;
    }
    static String pairs(SortedMap<Row, Integer> m) {
        StringJoiner j = new StringJoiner(",", "[", "]");
        m.forEach((row, v) -> j.add(row.printed() + v + "]"));
        return j.toString();
    }
    static String history(SortedMap<Row, Integer> initial, Collection<Txn> txns, SortedMap<Row, Integer> end) {
        StringBuilder b = new StringBuilder("{\"format\":\"hermitage-history\",\"version\":2,\"initial\":").append(pairs(initial));
        b.append(",\"transactions\":[");
        String sep = "";
        for (Txn t : txns) {
            b.append(sep).append("\n{\"no\":").append(t.no).append(",\"outcome\":\"").append(t.committed ? "committed" : "aborted").append("\",\"ops\":[");
            sep = ",";
            String s2 = "";
            for (Op o : t.ops) {
                StringJoiner v = new StringJoiner(",", "[", "]");
                o.view.forEach((row, x) -> v.add(row.printed() + x.txn + "," + x.op + "]"));
                b.append(s2).append("\n {\"statement\":\"").append(o.statement).append("\",\"view\":").append(v)
                    .append(",\"rows\":").append(pairs(o.rows)).append(",\"writes\":").append(pairs(o.writes)).append('}');
                s2 = ",";
            }
            b.append("]}");
        }
        b.append("],\n\"installed\":[");
        TreeMap<Row, List<Integer>> inst = new TreeMap<>();
        txns.stream().filter(t -> t.committed).sorted(Comparator.comparingLong(t -> t.place))
            .forEach(t -> t.own.keySet().forEach(row -> inst.computeIfAbsent(row, i -> new ArrayList<>()).add(t.no)));
        StringJoiner j = new StringJoiner(",");
        inst.forEach((row, l) -> j.add(row.printed() + l.toString().replace(" ", "") + "]"));
        return b.append(j).append("],\n\"end\":").append(pairs(end)).append("}\n").toString();
    }

    // ---------------------------------------------------------------- playing a script
    record Line(int session, String command, int no) {}
    static final AtomicLong PLACES = new AtomicLong();

    static final class Session {
        final Connection c; final Thread thread; final SynchronousQueue<Runnable> todo = new SynchronousQueue<>();
        volatile boolean busy, started; Txn txn; boolean failed; int waited, refused; final Deque<Line> kept = new ArrayDeque<>();
        volatile long still; // since when its thread has been seen parked: forgotten whenever any session's statement ends
        boolean counted;
        final Collection<Session> all;
        Session(Connection c, Collection<Session> all) {
            this.c = c; this.all = all;
            thread = new Thread(() -> { try { for (;;) { Runnable r = todo.take(); started = true; r.run(); busy = false; for (Session o : all) o.still = 0; } } catch (InterruptedException e) { } });
            thread.setDaemon(true);
            thread.start();
        }
        void give(Runnable r) throws InterruptedException { busy = true; started = false; counted = false; still = 0; todo.put(r); }
        /** Whether its statement waits: its thread has been parked for 30 ms, and not run. An embedded database runs in it. */
        boolean waits() {
            if (!busy || !started) return false;
            Thread.State st = thread.getState();
            if (st == Thread.State.RUNNABLE) { still = 0; return false; }
            if (still == 0) still = System.nanoTime();
            return System.nanoTime() - still > 30_000_000L;
        }
    }

    final Db db; final Level level; final String base; final PrintStream log;
    final Map<Integer, Session> sessions = new TreeMap<>();
    final List<Txn> txns = Collections.synchronizedList(new ArrayList<>());
    int waited, refused;

    Rec(Db db, Level level, String base, PrintStream log) { this.db = db; this.level = level; this.base = base; this.log = log; }

    void step(Session s, Line l) throws InterruptedException {
        String cmd = l.command;
        if (cmd.equals("begin")) {
            if (s.txn != null) return;
            s.txn = new Txn(txns.size() + 1);
            s.failed = false;
            txns.add(s.txn);
            return;
        }
        if (s.txn == null) return;
        Txn t = s.txn;
        s.give(() -> {
            try {
                if (cmd.equals("commit")) {
                    if (s.failed) { s.c.rollback(); } else {
                        t.place = PLACES.incrementAndGet();
                        s.c.commit();
                        t.committed = true;
                    }
                    s.txn = null;
                } else if (cmd.equals("abort")) {
                    s.c.rollback();
                    s.txn = null;
                } else if (s.failed) {
                    log.println("   " + l.no + " T" + l.session + " " + cmd + ": refused, aborted before");
                    return;
                } else {
                    Op o = run(s.c, t, cmd);
                    log.println("   " + l.no + " T" + l.session + " " + cmd + " -> " + o.rows + " => " + o.writes + " saw " + o.view);
                    return;
                }
                log.println("   " + l.no + " T" + l.session + " " + cmd + ": " + (t.committed ? "committed" : "aborted"));
            } catch (SQLException e) {
                log.println("   " + l.no + " T" + l.session + " " + cmd + ": REFUSED " + e.getSQLState() + " " + e.getErrorCode() + " " + e.getMessage().split("\n")[0]);
                s.failed = true;
                refused++;
                try { s.c.rollback(); } catch (SQLException e2) { log.println("rollback: " + e2); }
                if (cmd.equals("commit")) s.txn = null;
            }
        });
    }

    /** Until each session is idle or waits for another. */
    void settle() throws InterruptedException {
        for (;;) {
            boolean all = true;
            for (Session s : sessions.values()) {
                if (s.busy && !s.waits()) all = false;
                else if (s.busy && !s.counted) { s.counted = true; waited++; log.println("   .. waits"); }
            }
            if (all) return;
            Thread.sleep(2);
        }
    }

    void drain() throws InterruptedException {
        for (boolean more = true; more; ) {
            more = false;
            settle();
            Session first = null; // the one with the earliest line
            for (Session s : sessions.values())
                if (!s.busy && !s.kept.isEmpty() && (first == null || s.kept.peek().no < first.kept.peek().no)) first = s;
            if (first != null) { step(first, first.kept.poll()); settle(); more = true; }
        }
    }

    String play(String script) throws Exception {
        TreeMap<Row, Integer> initial = new TreeMap<>(), end;
        List<Line> lines = new ArrayList<>();
        int no = 0;
        for (String raw : script.split("\n")) {
            no++;
            String code = raw.replaceAll("--.*", "").trim();
            if (code.isEmpty()) continue;
            if (code.startsWith("setup")) {
                Matcher m = Pattern.compile("(stock )?\\((-?\\d+), (-?\\d+)\\)").matcher(code);
                while (m.find()) {
                    String table = m.group(1) == null ? "test" : "stock";
                    initial.put(new Row(table, Integer.parseInt(m.group(2))), Integer.parseInt(m.group(3)));
                }
            } else {
                int ses = Integer.parseInt(raw.replaceAll(".*-- T(\\d).*", "$1"));
                for (String st : code.split(";")) if (!st.isBlank()) lines.add(new Line(ses, st.trim(), no));
            }
        }
        Connection admin = connect(db, base, null);
        try (java.sql.Statement s = admin.createStatement()) {
            for (String table : TABLES) s.execute(DDL.formatted(table));
            s.execute(function(db));
            for (var e : initial.entrySet())
                s.execute("insert into " + e.getKey().table + " (id, v) values (" + e.getKey().id + ", " + e.getValue() + ")");
        }
        admin.commit();
        for (Line l : lines) if (!sessions.containsKey(l.session)) sessions.put(l.session, new Session(connect(db, base, level), sessions.values()));
        for (Line l : lines) {
            Session s = sessions.get(l.session);
            drain();
            if (s.busy || !s.kept.isEmpty()) { s.kept.add(l); continue; }
            step(s, l);
            settle();
        }
        drain();
        // only sessions that wait have lines left: roll back the least of the others that is open
        for (boolean more = true; more; ) {
            more = false;
            for (var e : sessions.entrySet()) {
                Session s = e.getValue();
                if (!s.busy && s.kept.isEmpty() && s.txn != null) { log.println("   rolled back T" + e.getKey()); step(s, new Line(e.getKey(), "abort", 0)); settle(); more = true; break; }
            }
            drain();
            for (Session s : sessions.values()) if (s.busy || !s.kept.isEmpty()) more = true;
        }
        for (Session s : sessions.values()) { s.c.rollback(); s.c.close(); }
        end = tables(admin);
        String h = history(initial, txns, end);
        try (java.sql.Statement s = admin.createStatement()) {
            if (db.name.equals("derby")) { // (A new database takes it a second.)
                for (String table : TABLES) s.execute("drop table " + table);
                s.execute("drop function note");
                admin.commit();
                admin.close();
            } else s.execute("SHUTDOWN");
        }
        for (Session s : sessions.values()) s.thread.interrupt();
        return h;
    }

    public static void main(String[] a) throws Exception {
        System.setProperty("hsqldb.method_class_names", "Rec.*");
        System.setProperty("derby.locks.deadlockTimeout", "1");
        System.setProperty("derby.locks.waitTimeout", "20");
        System.setProperty("derby.stream.error.file", a[2] + "/derby.log");
        Path in = Path.of(a[1]), out = Path.of(a[2]);
        List<Path> files;
        try (var st = Files.list(in)) { files = st.filter(p -> p.toString().endsWith(".txt")).sorted().toList(); }
        // (HSQLDB prints its own notes on standard output.)
        PrintStream none = new PrintStream(OutputStream.nullOutputStream());
        System.setOut(none);
        int n = 0;
        for (Db db : DBS) for (Level level : db.name.startsWith(a[0]) ? db.levels : List.<Level>of()) for (Path f : files) {
            String name = f.getFileName().toString().replace(".txt", "");
            Rec r = new Rec(db, level, db.name.equals("derby") ? "b" : "b" + n++, none);
            Files.writeString(out.resolve(db.name + "." + level.name + "." + name + ".json"), r.play(Files.readString(f)));
        }
    }
}
