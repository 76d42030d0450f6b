// Answers a script from standard input, as `ocpp_board replay` does, by JNA (Debian: libjna-java):
//     java -cp /usr/share/java/jna.jar Ledger.java < first.script
import com.sun.jna.*;
import com.sun.jna.ptr.LongByReference;

public class Ledger {
    public interface Calls extends Library {
        int ocpp_ledger_answer(byte[] script, long length, byte[] text, long room, LongByReference used, LongByReference work);
    }

    public static void main(String[] words) throws Exception {
        Calls calls = Native.load("ocpp_ledger", Calls.class);
        byte[] script = System.in.readAllBytes(), text = new byte[64 * script.length + 4096];
        LongByReference used = new LongByReference(), work = new LongByReference();
        int status = calls.ocpp_ledger_answer(script, script.length, text, text.length, used, work);
        if (status == 1) { // TOO_SMALL: `used` is how many bytes the text has.
            text = new byte[(int) used.getValue()];
            status = calls.ocpp_ledger_answer(script, script.length, text, text.length, used, work);
        }
        if (status != 0) System.exit(status);
        System.out.write(text, 0, (int) used.getValue());
        System.out.flush();
    }
}
