package plug;

import java.util.Set;
import javax.servlet.ServletContainerInitializer;
import javax.servlet.ServletContext;

/** An initializer that a service file of plugin.jar names: it registers a servlet. */
public class Register implements ServletContainerInitializer {
    @Override
    public void onStartup(Set<Class<?>> classes, ServletContext context) {
        context.addServlet("registered", Registered.class).addMapping("/registered");
    }
}
