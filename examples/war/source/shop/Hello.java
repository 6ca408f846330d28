package shop;

import java.io.IOException;
import java.io.PrintWriter;
import java.util.ResourceBundle;
import javax.annotation.Nonnull;
import javax.annotation.PostConstruct;
import javax.annotation.Resource;
import javax.servlet.ServletException;
import javax.servlet.annotation.WebServlet;
import javax.servlet.http.HttpServlet;
import javax.servlet.http.HttpServletRequest;
import javax.servlet.http.HttpServletResponse;

/**
 * A servlet that an annotation declares. It prints what the listener, the filter and the resource bundle gave it, and what the
 * server did for its annotations of JSR 250. It has one of JSR 305, too, whose archive the application brings.
 */
@WebServlet(name = "hello", urlPatterns = "/hello")
public class Hello extends HttpServlet {
    private static final long serialVersionUID = 1L;

    @Resource(name = "shop.owner")
    private String owner;

    private boolean opened;

    @PostConstruct
    void open() {
        opened = true;
    }

    @Override
    protected void doGet(HttpServletRequest request, HttpServletResponse response) throws ServletException, IOException {
        ResourceBundle messages = ResourceBundle.getBundle("shop.messages");
        response.setContentType("text/plain;charset=UTF-8");
        PrintWriter out = response.getWriter();
        out.println(messages.getString("greeting"));
        out.println("started by the listener: " + getServletContext().getAttribute("shop.started"));
        out.println("passed the filter: " + request.getAttribute("shop.filtered"));
        out.println("class of the bundle: " + simple(messages.getString("base")));
        out.println("is it this servlet's: " + isBase(messages.getString("base")));
        out.println("the owner, by the server: " + owner);
        out.println("opened by the server: " + opened);
        out.println("annotated for tools: " + isAnnotated());
    }

    @Nonnull
    private static String simple(String name) {
        return name.substring(name.lastIndexOf('.') + 1);
    }

    /** Whether a method of this class has its annotation of JSR 305: only where that and its archive were renamed alike. */
    private static boolean isAnnotated() throws ServletException {
        try {
            return Hello.class.getDeclaredMethod("simple", String.class).isAnnotationPresent(Nonnull.class);
        } catch (NoSuchMethodException e) {
            throw new ServletException(e);
        }
    }

    /** Whether the class of this name is a super class of the servlet: only where text and class were renamed alike. */
    private boolean isBase(String name) throws ServletException {
        try {
            return Class.forName(name).isInstance(this);
        } catch (ClassNotFoundException e) {
            throw new ServletException(e);
        }
    }
}
