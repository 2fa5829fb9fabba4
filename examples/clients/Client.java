/* A client in Java, by JNA: Client 127.0.0.1:7400. */
import com.sun.jna.Library;
import com.sun.jna.Memory;
import com.sun.jna.Native;
import com.sun.jna.Pointer;
import com.sun.jna.ptr.LongByReference;
import com.sun.jna.ptr.PointerByReference;

public class Client {
    /** The calls of krl_client.h that are used here. */
    interface Krl extends Library {
        int ANSWERS = 15, OK = 0, ABSENT = 2, UNCHANGED = 6;

        int krlc_join(Pointer options, PointerByReference client, Pointer error);
        int krlc_number(Pointer client);
        int krlc_get(Pointer client, long key, Pointer row, long timeout, Pointer error);
        int krlc_read(Pointer client, long lo, long hi, Pointer rows, long timeout, Pointer error);
        int krlc_cached(Pointer client, long lo, long hi, Pointer rows);
        int krlc_put(Pointer client, long key, byte[] bytes, long length, long timeout, Pointer error);
        int krlc_set(Pointer client, long key, byte[] bytes, long length, long timeout, Pointer error);
        int krlc_delete(Pointer client, long key, long timeout, Pointer error);
        int krlc_pin_for_update(Pointer client, long lo, long hi, Pointer rows, PointerByReference pin, long timeout,
                Pointer error);
        int krlc_pin_put(Pointer pin, long key, byte[] bytes, long length, long timeout, Pointer error);
        void krlc_pin_free(Pointer pin);
        int krlc_wait_for_change(Pointer client, long lo, long hi, Pointer rows, long count, long timeout,
                Pointer error);
        Pointer krlc_rows_new();
        Pointer krlc_rows_get(Pointer rows, LongByReference count);
        void krlc_rows_free(Pointer rows);
        void krlc_free(Pointer client);
    }

    static final Krl KRL = Native.load("krl_client", Krl.class);
    /** A krlc_error: its sentence begins at byte 12. */
    static final Memory ERROR = new Memory(512);

    /** Ends the program after an error. A code up to ANSWERS is an answer. */
    static int checked(int code) {
        if (code > Krl.ANSWERS)
            throw new IllegalStateException(ERROR.getString(12));
        return code;
    }

    /** The krlc_options of 112 bytes: their size, and the servers at byte 8. */
    static int connect(String servers, PointerByReference client) {
        Memory options = new Memory(112), text = new Memory(servers.length() + 1);
        options.clear();
        options.setLong(0, 112);
        text.setString(0, servers);
        options.setPointer(8, text);
        return KRL.krlc_join(options, client, ERROR);
    }

    /** A krlc_row has 48 bytes: its key, the length of the value at byte 8, and the value at byte 16. */
    static void show(String what, Pointer rows) {
        LongByReference count = new LongByReference();
        Pointer first = KRL.krlc_rows_get(rows, count);
        if (count.getValue() == 0)
            System.out.println(what + ": no row");
        for (long at = 0; at < 48 * count.getValue(); at += 48) {
            String value = new String(first.getByteArray(at + 16, (int) first.getLong(at + 8)));
            System.out.println(what + ": " + first.getLong(at) + "=" + value);
        }
    }

    public static void main(String[] words) {
        PointerByReference joined = new PointerByReference(), taken = new PointerByReference();
        checked(connect(words[0], joined)); // takes the first free number
        Pointer client = joined.getValue();
        System.out.println("client " + KRL.krlc_number(client));

        if (checked(KRL.krlc_get(client, 15, new Memory(48), 0, ERROR)) == Krl.ABSENT)
            System.out.println("get: no row");
        Pointer rows = KRL.krlc_rows_new();
        checked(KRL.krlc_read(client, 10, 20, rows, 0, ERROR)); // asks the server, and keeps the range
        show("read", rows);
        if (KRL.krlc_cached(client, 10, 20, rows) == Krl.OK) // no message
            show("cached", rows);

        if (checked(KRL.krlc_put(client, 15, "hello".getBytes(), 5, 0, ERROR)) == Krl.ABSENT)
            System.out.println("put: there is no row"); // krlc_set inserts it, or replaces its value
        checked(KRL.krlc_set(client, 15, "hello".getBytes(), 5, 0, ERROR));

        checked(KRL.krlc_pin_for_update(client, 10, 20, rows, taken, 0, ERROR)); // nobody else pins it for an update
        show("pinned", rows);
        checked(KRL.krlc_pin_put(taken.getValue(), 15, "world".getBytes(), 5, 0, ERROR));
        KRL.krlc_pin_free(taken.getValue());

        LongByReference count = new LongByReference();
        checked(KRL.krlc_read(client, 10, 20, rows, 0, ERROR));
        show("now", rows);
        checked(KRL.krlc_delete(client, 15, 0, ERROR));
        Pointer now = KRL.krlc_rows_get(rows, count);
        while (checked(KRL.krlc_wait_for_change(client, 10, 20, now, count.getValue(), 1000, ERROR)) == Krl.UNCHANGED)
            ;
        checked(KRL.krlc_read(client, 10, 20, rows, 0, ERROR));
        show("changed", rows);

        if (connect("127.0.0.1:1", joined) > Krl.ANSWERS)
            System.out.println("error: " + ERROR.getString(12));
        KRL.krlc_rows_free(rows);
        KRL.krlc_free(client); // gives everything back
    }
}
