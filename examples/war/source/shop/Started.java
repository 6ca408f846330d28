package shop;

import javax.servlet.ServletContextEvent;
import javax.servlet.ServletContextListener;

/** A listener that web.xml declares. */
public class Started implements ServletContextListener {
    @Override
    public void contextInitialized(ServletContextEvent event) {
        event.getServletContext().setAttribute("shop.started", event.getServletContext().getInitParameter("shop.name"));
    }

    @Override
    public void contextDestroyed(ServletContextEvent event) {
        event.getServletContext().removeAttribute("shop.started");
    }
}
