package shop;

import java.io.IOException;
import javax.servlet.http.HttpServlet;
import javax.servlet.http.HttpServletRequest;
import javax.servlet.http.HttpServletResponse;

/** The page of errors: it reads the attributes of the container, by their whole names and by a prefix. */
public class Failed extends HttpServlet {
    private static final long serialVersionUID = 1L;
    private static final String PREFIX = "javax.servlet.error.";

    @Override
    protected void service(HttpServletRequest request, HttpServletResponse response) throws IOException {
        response.setContentType("text/plain;charset=UTF-8");
        response.getWriter().println("status by its name: " + request.getAttribute("javax.servlet.error.status_code"));
        response.getWriter().println("path by the prefix: " + request.getAttribute(named("request_uri")));
        response.getWriter().println("where: " + where(request));
    }

    private static String named(String rest) {
        return PREFIX + rest;
    }

    private static String where(HttpServletRequest request) {
        return request.getAttribute("javax.servlet.forward.servlet_path") == null ? "nowhere" : "forwarded";
    }
}
