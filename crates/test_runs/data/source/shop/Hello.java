package shop;

import javax.annotation.PostConstruct;
import javax.annotation.security.PermitAll;
import javax.servlet.annotation.WebServlet;
import javax.servlet.http.HttpServlet;
import javax.servlet.http.HttpServletRequest;
import javax.sql.DataSource;
import javax.transaction.xa.XAResource;

/** Names of all kinds in one class: of classes, descriptors, annotations, and strings. */
@WebServlet("/hello")
@PermitAll
public class Hello extends HttpServlet {
    static final String CODE = "javax.servlet.error.status_code";
    static final String FRONT = "javax.servlet.error.";
    static final String PACKAGE = "javax.servlet";
    static final String FOUND = "Ljavax/servlet/annotation/WebServlet;";
    static final String STAY = "javax.transaction.xa.XAResource";
    static final String PROSE = "no javax.servlet here";
    static final String ARRAY = "[Ljavax.servlet.Filter;";
    static final String FILE = "javax/servlet/http/HttpServlet.class";
    static final String SERVICE = "META-INF/services/javax.persistence.spi.PersistenceProvider";
    static final String KEY = "javax.persistence.schema-generation.database.action";
    static final String STAYS_AS_PATH = "javax/transaction/xa/XAResource";
    static final String TAGS = "http://java.sun.com/jsp/jstl/core";
    DataSource data;
    XAResource resource;

    @PostConstruct
    Object[] start(HttpServletRequest request, String rest) {
        return new Object[] {CODE, FRONT, PACKAGE, FOUND, STAY, PROSE, request.getAttribute(FRONT + rest)};
    }
}
