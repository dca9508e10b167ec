import java.io.BufferedReader;
import java.io.IOException;
import java.io.InputStreamReader;
import java.util.ArrayList;
import java.util.List;
import javax.smartcardio.*;

/** A card in the virtual reader, for tests: it runs tools/reader, and sends commands by javax.smartcardio. */
public final class CardInReader implements AutoCloseable {
    private final Process process;
    private final Card card;

    /** Plays a script, and takes the card that it makes, with options of tools/reader. */
    public CardInReader(String script, String... options) throws IOException, CardException {
        List<String> words = new ArrayList<>(List.of("tools/reader", script));
        words.addAll(List.of(options));
        process = new ProcessBuilder(words).redirectError(ProcessBuilder.Redirect.INHERIT).start();
        BufferedReader said = new BufferedReader(new InputStreamReader(process.getInputStream()));
        String line = said.readLine();
        while (line != null && !line.equals("card in the reader")) {
            line = said.readLine();
        }
        if (line == null) {
            throw new IOException("there is no card in the reader");
        }
        card = TerminalFactory.getDefault().terminals().list(CardTerminals.State.CARD_PRESENT).get(0).connect("*");
    }

    /** The answer to a command: data and status. Both are in hexadecimal. */
    public String send(String command) throws CardException {
        byte[] bytes = new byte[command.length() / 2];
        for (int i = 0; i < bytes.length; i++) {
            bytes[i] = (byte) Integer.parseInt(command.substring(2 * i, 2 * i + 2), 16);
        }
        StringBuilder answer = new StringBuilder();
        for (byte part : card.getBasicChannel().transmit(new CommandAPDU(bytes)).getBytes()) {
            answer.append(String.format("%02X", part));
        }
        return answer.toString();
    }

    @Override
    public void close() throws CardException {
        card.disconnect(true);
        process.destroy();
    }
}
