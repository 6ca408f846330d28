package javax.servlet;

/** What the example application is written against: a stand-in for an API of Java EE. */
public interface Greeting<T> {
    T greet(T whom) throws ServletException;
}
