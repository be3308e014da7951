package demo;

public class GreeterTest {
    public static void main(String[] words) throws Exception {
        if (!Greeter.greeting().startsWith("Hello")) {
            throw new AssertionError("no greeting");
        }
    }
}
