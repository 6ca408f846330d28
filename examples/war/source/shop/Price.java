package shop;

import java.io.IOException;
import javax.servlet.jsp.JspException;
import javax.servlet.jsp.tagext.SimpleTagSupport;

/** A tag of its own, which shop.tld declares: it prints a price of so many cents. */
public class Price extends SimpleTagSupport {
    private int cents;

    public void setCents(int cents) {
        this.cents = cents;
    }

    @Override
    public void doTag() throws JspException, IOException {
        getJspContext().getOut().print(cents / 100 + "." + cents / 10 % 10 + cents % 10);
    }
}
