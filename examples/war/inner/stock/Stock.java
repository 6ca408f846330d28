package stock;

import javax.servlet.http.HttpServletRequest;

/** A class of an archive within an archive. */
public interface Stock {
    int count(HttpServletRequest request);
}
