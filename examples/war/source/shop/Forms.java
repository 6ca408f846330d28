package shop;

import java.io.IOException;
import java.io.PrintWriter;
import java.lang.invoke.MethodType;
import java.util.ResourceBundle;
import javax.servlet.Filter;
import javax.servlet.ServletException;
import javax.servlet.ServletRequest;
import javax.servlet.annotation.WebServlet;
import javax.servlet.http.HttpServlet;
import javax.servlet.http.HttpServletRequest;
import javax.servlet.http.HttpServletResponse;

/** A servlet that looks up what its strings name. None of them is a dotted name, and each is found only where it was renamed. */
@WebServlet("/forms")
public class Forms extends HttpServlet {
    private static final long serialVersionUID = 1L;
    private static final String ARRAY = "[Ljavax.servlet.Filter;";
    private static final String DESCRIPTOR = "Ljavax/servlet/ServletRequest;";
    private static final String FILE = "javax/servlet/http/HttpServlet.class";
    private static final String FILE_FROM_TOP = "/javax/servlet/Filter.class";
    private static final String FRONT = "javax.servlet.";
    private static final String FRONT_OF_PATH = "javax/servlet/";
    private static final String KEY = "javax.persistence.schema-generation.database.action";
    private static final String PATH = "javax/servlet/Filter";
    private static final String SERVICE = "META-INF/services/javax.servlet.ServletContainerInitializer";

    @Override
    protected void doGet(HttpServletRequest request, HttpServletResponse response) throws ServletException, IOException {
        ClassLoader loader = Forms.class.getClassLoader();
        response.setContentType("text/plain;charset=UTF-8");
        PrintWriter out = response.getWriter();
        try {
            out.println("array: " + (Class.forName(ARRAY, false, loader) == Filter[].class));
        } catch (ClassNotFoundException e) {
            throw new ServletException(e);
        }
        MethodType method = MethodType.fromMethodDescriptorString("()".concat(DESCRIPTOR), loader);
        out.println("descriptor: " + (method.returnType() == ServletRequest.class));
        out.println("file: " + (loader.getResource(FILE) != null));
        out.println("file from the top: " + (Filter.class.getResource(FILE_FROM_TOP) != null));
        out.println("front: " + Filter.class.getName().startsWith(FRONT));
        out.println("front of a path: " + Filter.class.getName().replace('.', '/').startsWith(FRONT_OF_PATH));
        out.println("key: " + ResourceBundle.getBundle("shop.settings").getString(KEY));
        out.println("path: " + Filter.class.getName().replace('.', '/').equals(PATH));
        out.println("service file: " + (loader.getResource(SERVICE) != null));
    }
}
