package demo;

import java.io.IOException;
import java.io.InputStream;
import java.nio.charset.StandardCharsets;

public class Greeter {
    static String greeting() throws IOException {
        try (InputStream in = Greeter.class.getResourceAsStream("/greeting.txt")) {
            return new String(in.readAllBytes(), StandardCharsets.UTF_8).trim();
        }
    }

    public static void main(String[] words) throws IOException {
        System.out.println(greeting());
    }
}
