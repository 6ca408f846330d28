#!/usr/bin/env python3
"""Descriptors in the form that Java EE 8 gives them, text rules for them, and what they become.

Usage: texts.py write APP RULES, texts.py report, or texts.py compare APP OUT.
"""
import os
import re
import sys
import xml.etree.ElementTree as tree

WEB = """<?xml version="1.0" encoding="UTF-8"?>
<web-app xmlns="http://xmlns.jcp.org/xml/ns/javaee"
         xmlns:xsi="http://www.w3.org/2001/XMLSchema-instance"
         xsi:schemaLocation="http://xmlns.jcp.org/xml/ns/javaee http://xmlns.jcp.org/xml/ns/javaee/web-app_4_0.xsd"
         version="4.0">
  <display-name>Shop &amp; javax</display-name>
  <context-param>
    <param-name>javax.faces.PROJECT_STAGE</param-name>
    <param-value>Production</param-value>
  </context-param>
  <listener>
    <listener-class>javax.servlet.ServletContextListenerOfShop</listener-class>
  </listener>
  <servlet>
    <servlet-name>faces</servlet-name>
    <servlet-class>javax.faces.webapp.FacesServlet</servlet-class>
    <load-on-startup>1</load-on-startup>
  </servlet>
  <servlet-mapping>
    <servlet-name>faces</servlet-name>
    <url-pattern>*.xhtml</url-pattern>
  </servlet-mapping>
  <resource-ref>
    <res-ref-name>jdbc/shop</res-ref-name>
    <res-type>javax.sql.DataSource</res-type>
  </resource-ref>
  <error-page>
    <exception-type>javax.servlet.ServletException</exception-type>
    <location>/error.xhtml</location>
  </error-page>
</web-app>
"""

PERSISTENCE = """<?xml version="1.0" encoding="UTF-8"?>
<persistence xmlns="http://xmlns.jcp.org/xml/ns/persistence"
             xmlns:xsi="http://www.w3.org/2001/XMLSchema-instance"
             xsi:schemaLocation="http://xmlns.jcp.org/xml/ns/persistence http://xmlns.jcp.org/xml/ns/persistence/persistence_2_2.xsd"
             version="2.2">
  <persistence-unit name="shop" transaction-type="JTA">
    <jta-data-source>jdbc/shop</jta-data-source>
    <class>shop.Order</class>
    <properties>
      <property name="javax.persistence.schema-generation.database.action" value="none"/>
      <property name="javax.persistence.lock.timeout" value="1000"/>
    </properties>
  </persistence-unit>
</persistence>
"""

FACES = """<?xml version='1.0' encoding='UTF-8'?>
<faces-config xmlns="http://xmlns.jcp.org/xml/ns/javaee"
    xmlns:xsi="http://www.w3.org/2001/XMLSchema-instance"
    xsi:schemaLocation="http://xmlns.jcp.org/xml/ns/javaee http://xmlns.jcp.org/xml/ns/javaee/web-facesconfig_2_3.xsd"
    version="2.3">
  <application>
    <locale-config><default-locale>en</default-locale></locale-config>
    <system-event-listener>
      <system-event-listener-class>shop.Started</system-event-listener-class>
      <system-event-class>javax.faces.event.PostConstructApplicationEvent</system-event-class>
    </system-event-listener>
  </application>
  <converter>
    <converter-for-class>shop.Money</converter-for-class>
    <converter-class>shop.MoneyConverter</converter-class>
  </converter>
</faces-config>
"""

TAGS = """<?xml version="1.0" encoding="UTF-8"?>
<taglib xmlns="http://xmlns.jcp.org/xml/ns/javaee"
        xmlns:xsi="http://www.w3.org/2001/XMLSchema-instance"
        xsi:schemaLocation="http://xmlns.jcp.org/xml/ns/javaee http://xmlns.jcp.org/xml/ns/javaee/web-jsptaglibrary_2_1.xsd"
        version="2.1">
  <tlib-version>1.0</tlib-version>
  <short-name>shop</short-name>
  <uri>http://shop.example/tags</uri>
  <validator>
    <validator-class>javax.servlet.jsp.tagext.PermittedTaglibsOfShop</validator-class>
  </validator>
  <tag>
    <name>price</name>
    <tag-class>shop.PriceTag</tag-class>
    <body-content>empty</body-content>
    <attribute>
      <name>order</name>
      <required>true</required>
      <type>javax.servlet.http.HttpSession</type>
    </attribute>
  </tag>
</taglib>
"""

NAMES = """# the names of the shop; javax.sql stays
javax.persistence.provider = shop.Provider
mail.session = javax.mail.Session
data.source = javax.sql.DataSource
"""

# the files of the application, in byte order of their paths
FILES = {
    "META-INF/persistence.xml": PERSISTENCE,
    "WEB-INF/classes/shop.properties": NAMES,
    "WEB-INF/faces-config.xml": FACES,
    "WEB-INF/shop.tld": TAGS,
    "WEB-INF/web.xml": WEB,
}

# the text rules of the XML files, and of the property files
XML = {
    "http://xmlns.jcp.org/xml/ns/javaee": "https://jakarta.ee/xml/ns/jakartaee",
    "http://xmlns.jcp.org/xml/ns/javaee/web-app_4_0.xsd": "https://jakarta.ee/xml/ns/jakartaee/web-app_5_0.xsd",
    "http://xmlns.jcp.org/xml/ns/javaee/web-facesconfig_2_3.xsd": "https://jakarta.ee/xml/ns/jakartaee/web-facesconfig_3_0.xsd",
    "http://xmlns.jcp.org/xml/ns/javaee/web-jsptaglibrary_2_1.xsd": "https://jakarta.ee/xml/ns/jakartaee/web-jsptaglibrary_3_0.xsd",
    "http://xmlns.jcp.org/xml/ns/persistence": "https://jakarta.ee/xml/ns/persistence",
    "http://xmlns.jcp.org/xml/ns/persistence/persistence_2_2.xsd": "https://jakarta.ee/xml/ns/persistence/persistence_3_0.xsd",
    ' version="4.0"': ' version="5.0"',
    ' version="2.1"': ' version="3.0"',
    ' version="2.2"': ' version="3.0"',
    ' version="2.3"': ' version="3.0"',
    "javax.faces.": "jakarta.faces.",
    "javax.persistence.": "jakarta.persistence.",
    "javax.servlet.": "jakarta.servlet.",
}
PROPERTIES = {
    "javax.mail.": "jakarta.mail.",
    "javax.persistence.": "jakarta.persistence.",
}


def rules_of(path):
    return PROPERTIES if path.endswith(".properties") else XML


def changed(path, text):
    """The text by its rules, the longest source first, and how many were exchanged, by Python's regular expressions."""
    rules = rules_of(path)
    longest_first = sorted(rules, key=len, reverse=True)
    return re.subn("|".join(map(re.escape, longest_first)), lambda found: rules[found.group()], text)


def escaped(text):
    """A key as a property file spells it; a value of such a file may be spelled so too."""
    return re.sub(r"([ :=#!\\])", r"\\\1", text)


def write(path, content):
    os.makedirs(os.path.dirname(path), exist_ok=True)
    with open(path, "w", encoding="utf-8", newline="") as out:
        out.write(content)


def read(path):
    with open(path, encoding="utf-8", newline="") as text:
        return text.read()


def write_all(app, rules):
    for path, content in FILES.items():
        write(os.path.join(app, path), content)
    write(os.path.join(rules, "renames.properties"), "javax.servlet.*=jakarta.servlet\n")
    write(os.path.join(rules, "text.properties"), "*.xml=text/xml.properties\n*.tld=text/xml.properties\n*.properties=text/names.properties\n")
    for name, entries in (("xml", XML), ("names", PROPERTIES)):
        write(os.path.join(rules, "text", name + ".properties"), "".join(f"{escaped(key)}={escaped(value)}\n" for key, value in entries.items()))


def shape(text):
    """The local names of the elements of a document, in their order."""
    return [element.tag.rpartition("}")[2] for element in tree.fromstring(text.encode()).iter()]


def compare(app, out):
    for path in FILES:
        old, new = read(os.path.join(app, path)), read(os.path.join(out, path))
        if new != changed(path, old)[0]:
            print(f"differs: {path}")
        elif not path.endswith(".properties") and shape(old) != shape(new):
            print(f"another document: {path}")
    print("same")


def main():
    if sys.argv[1] == "write":
        write_all(sys.argv[2], sys.argv[3])
    elif sys.argv[1] == "report":
        for path, content in FILES.items():
            print(f"written {path} {path} text changed={changed(path, content)[1]}")
    else:
        compare(sys.argv[2], sys.argv[3])


main()
