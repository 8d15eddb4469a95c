// The PEF validator of brailleutils on each file, a line each: valid or not, with its report.
import java.io.File;
import java.io.InputStream;
import org.daisy.braille.pef.PEFValidator;

public class Validate {
    public static void main(String[] files) throws Exception {
        for (String file : files) {
            PEFValidator validator = new PEFValidator();
            if (validator.validate(new File(file).toURI().toURL())) {
                System.out.println("valid " + file);
            } else {
                System.out.println("not valid " + file);
                try (InputStream report = validator.getReportStream()) {
                    report.transferTo(System.out);
                }
            }
        }
    }
}
