package web;

import java.util.List;
import java.util.ServiceLoader;
import java.util.function.Function;
import javax.servlet.Greeting;
import javax.servlet.ServletException;
import javax.servlet.annotation.Named;

/** Uses an API by names, descriptors, signatures, annotations, strings, lambdas and a service file. */
@Named(value = Greeting.class, path = {"/hello", "/greet"})
public class Hello implements Greeting<String> {
    private final List<? extends Greeting<String>> others = List.of();

    record Pair(Greeting<String> greeting, String whom) {
    }

    @Override
    public String greet(String whom) throws ServletException {
        if (whom.isEmpty()) {
            throw new ServletException("nobody");
        }
        return "hello " + whom;
    }

    private static <G extends Greeting<String>> String by(G greeting, String whom) {
        try {
            return greeting.greet(whom);
        } catch (ServletException nobody) {
            return nobody.getClass().getName();
        }
    }

    public static void main(String[] words) throws Exception {
        Class<?> api = Class.forName("javax.servlet.Greeting");
        System.out.println(api.getName() + " " + api.isInstance(new Hello()));
        System.out.println(Hello.class.getAnnotation(Named.class).value().getName());
        for (Greeting<?> greeting : ServiceLoader.load(Greeting.class)) {
            Pair pair = new Pair(new Hello(), greeting.getClass().getName());
            Function<String, String> greet = whom -> by(pair.greeting(), whom);
            System.out.println(greet.apply(pair.whom()));
            System.out.println(greet.apply(""));
        }
        System.out.println(Hello.class.getDeclaredField("others").getGenericType());
    }
}
