#!/usr/bin/env python3
"""Writes the folders of ready rules, one for each of SETS, from the tables below.

    tools/rules.py [FOLDER]     writes them below FOLDER (the folder rules/ of the repository where none is given)

A line of a rule file has its origin in the comment above it. Origins:
  EE 9      the Jakarta EE 9.1 platform specification and the API documentation of its parts
  measured  found in 390 Java libraries that use `javax`
  known     of the field, and not among the files of these libraries
  peer      the profile EE of Apache Tomcat's migration tool for Jakarta EE
  Debian    the manifest of that library in Debian 12
"""
import collections
import os
import sys

# A set of ready rules: the folder that it is written to, the edition of Jakarta EE, and whether javax.annotation moves as a
# package. Where it doesn't, JSR 250 stays with JSR 305, and only its packages below move.
Ready = collections.namedtuple("Ready", "folder edition annotations")
SETS = [
    Ready("jakarta-ee-9", "9.1", True),
    Ready("jakarta-ee-9-jsr305", "9.1", False),
    Ready("jakarta-ee-10", "10", True),
]

# Each moved package with everything below it, the specification that it belongs to, the version of its packages in
# Jakarta EE 9.1, the first version that a bundle for Jakarta EE 9 doesn't fit, and the packages below it that the
# specification has.
MOVED = [
    ("activation", "Activation", "2.0", "3", [""]),
    ("annotation.security", "Annotations", "2.0", "3", [""]),
    ("annotation.sql", "Annotations", "2.0", "3", [""]),
    ("batch", "Batch", "2.0", "3", [
        "api", "api.chunk", "api.chunk.listener", "api.listener", "api.partition", "operations", "runtime",
        "runtime.context"]),
    ("decorator", "Contexts and Dependency Injection", "3.0", "4", [""]),
    ("ejb", "Enterprise Beans", "4.0", "5", ["", "embeddable", "spi"]),
    ("el", "Expression Language", "4.0", "5", [""]),
    ("enterprise", "Contexts and Dependency Injection", "3.0", "4", [
        "context", "context.control", "context.spi", "event", "inject", "inject.literal", "inject.se", "inject.spi",
        "inject.spi.configurator", "util"]),
    ("enterprise.concurrent", "Concurrency", "2.0", "3", [""]),
    ("faces", "Faces", "3.0", "4", [
        "", "annotation", "application", "bean", "component", "component.behavior", "component.html",
        "component.search", "component.visit", "context", "convert", "el", "event", "flow", "flow.builder",
        "lifecycle", "model", "push", "render", "validator", "view", "view.facelets", "webapp"]),
    ("inject", "Dependency Injection", "2.0", "3", [""]),
    ("interceptor", "Interceptors", "2.0", "3", [""]),
    ("jms", "Messaging", "3.0", "4", [""]),
    ("json", "JSON Processing", "2.0", "3", ["", "spi", "stream"]),
    ("json.bind", "JSON Binding", "2.0", "3", ["", "adapter", "annotation", "config", "serializer", "spi"]),
    ("jws", "Web Services Metadata", "3.0", "4", ["", "soap"]),
    ("mail", "Mail", "2.0", "3", ["", "event", "internet", "search", "util"]),
    ("management.j2ee", "Management", None, None, []),
    ("persistence", "Persistence", "3.0", "4", ["", "criteria", "metamodel", "spi"]),
    ("resource", "Connectors", "2.0", "3", ["", "cci", "spi", "spi.endpoint", "spi.security", "spi.work"]),
    ("security.auth.message", "Authentication", "2.0", "3", ["", "callback", "config", "module"]),
    ("security.enterprise", "Security", "2.0", "3", [
        "", "authentication.mechanism.http", "credential", "identitystore"]),
    ("security.jacc", "Authorization", "2.0", "3", [""]),
    ("servlet", "Servlet", "5.0", "6", ["", "annotation", "descriptor", "http"]),
    ("servlet.jsp", "Server Pages", "3.0", "4", ["", "el", "tagext"]),
    ("servlet.jsp.jstl", "Standard Tag Library", "2.0", "3", ["core", "fmt", "sql", "tlv"]),
    ("transaction", "Transactions", "2.0", "3", [""]),
    ("validation", "Bean Validation", "3.0", "4", [
        "", "bootstrap", "constraints", "constraintvalidation", "executable", "groups", "metadata", "spi",
        "valueextraction"]),
    ("websocket", "WebSocket", "2.0", "3", ["", "server"]),
    ("ws.rs", "RESTful Web Services", "3.0", "4", ["", "client", "container", "core", "ext", "sse"]),
    ("xml.bind", "XML Binding", "3.0", "4", [
        "", "annotation", "annotation.adapters", "attachment", "helpers", "util"]),
    ("xml.soap", "SOAP with Attachments", "2.0", "3", [""]),
    ("xml.ws", "XML Web Services", "3.0", "4", [
        "", "handler", "handler.soap", "http", "soap", "spi", "spi.http", "wsaddressing"]),
]

# JSR 250's own package, where it moves.
ANNOTATIONS = ("annotation", "Annotations", "2.0", "3", [""])

# What Jakarta EE 10 has other than 9.1: the versions of packages and their ends, and packages that it lacks. Web Services
# Metadata is part of XML Web Services there, which has another version.
VERSIONS_10 = {
    "activation": ("2.1", "3"), "annotation": ("2.1", "3"), "annotation.security": ("2.1", "3"),
    "annotation.sql": ("2.1", "3"), "batch": ("2.1", "3"), "decorator": ("4.0", "5"), "el": ("5.0", "6"),
    "enterprise": ("4.0", "5"), "enterprise.concurrent": ("3.0", "4"), "faces": ("4.0", "5"), "interceptor": ("2.1", "3"),
    "jms": ("3.1", "4"), "json": ("2.1", "3"), "json.bind": ("3.0", "4"), "jws": ("3.0", "5"), "mail": ("2.1", "3"),
    "persistence": ("3.1", "4"), "resource": ("2.1", "3"), "security.auth.message": ("3.0", "4"),
    "security.enterprise": ("3.0", "4"), "security.jacc": ("2.1", "3"), "servlet": ("6.0", "7"), "servlet.jsp": ("3.1", "4"),
    "servlet.jsp.jstl": ("3.0", "4"), "websocket": ("2.1", "3"), "ws.rs": ("3.1", "4"), "xml.bind": ("4.0", "5"),
    "xml.soap": ("3.0", "4"), "xml.ws": ("4.0", "5"),
}
GONE_10 = ["faces.bean", "faces.el"]

# Packages that have no rule of their own, since the rule of a package above them renames them.
WITHIN = ("enterprise.concurrent", "json.bind", "servlet.jsp", "servlet.jsp.jstl")

# Packages that stay, each with why.
STAY = [
    ("transaction.xa", "", "part of Java SE (module java.transaction.xa)", False),
    ("enterprise.deploy", ".*", "Deployment was removed from Jakarta EE 9 and never moved", False),
    ("annotation.processing", ".*", "part of Java SE (module java.compiler)", True),
    ("annotation.concurrent", ".*", "JSR 305, which never moved", True),
    ("annotation.meta", ".*", "JSR 305, which never moved", True),
]

# Symbolic names: old, new, version in Jakarta EE 9.1, origin, and whether it belongs to JSR 250 alone.
BUNDLES = [
    ("javax.annotation-api", "jakarta.annotation-api", "2.0.0", "Debian: libjakarta-annotation-api-java 2.0.0", True),
    ("com.sun.activation.javax.activation", "com.sun.activation.jakarta.activation", "2.0.0",
     "Debian: libactivation-java 1.2.0 and libjakarta-activation-java 2.0.0", False),
    ("javax.el-api", "jakarta.el-api", "4.0.0", "Debian: libel-api-java 3.0.0 and libjakarta-el-api-java; version by EE 9",
     False),
    ("javax.interceptor-api", "jakarta.interceptor-api", "2.0.0",
     "Debian: libjakarta-interceptor-api-java; version by EE 9", False),
    ("javax.mail-api", "jakarta.mail-api", "2.0.0", "Debian: libmail-java 1.6.5 and libjakarta-mail-java 2.0.0", False),
    ("javax.mail.api", "jakarta.mail.api", "2.0.0", "Debian: libmail-java 1.6.5 and libjakarta-mail-java 2.0.0", False),
    ("com.sun.mail.javax.mail", "com.sun.mail.jakarta.mail", "2.0.0",
     "Debian: libmail-java 1.6.5 and libjakarta-mail-java 2.0.0", False),
    ("javax.servlet-api", "jakarta.servlet-api", "5.0.0",
     "Debian: libservlet-api-java 4.0.0 and libjakarta-servlet-api-java 5.0.0", False),
    ("javax.servlet.jsp-api", "jakarta.servlet.jsp-api", "3.0.0", "Debian: libjsp-api-java; version by EE 9", False),
    ("javax.validation.api", "jakarta.validation.jakarta.validation-api", "3.0.0",
     "Debian: libjakarta-validation-api-java; version by EE 9", False),
    ("javax.websocket-api", "jakarta.websocket-api", "2.0.0", "Debian: libwebsocket-api-java 1.1; version by EE 9", False),
]

# Their versions in Jakarta EE 10, where they are others. Mail and Activation are divided there into an API and an
# implementation, so that what com.sun.mail.javax.mail, javax.mail.api and com.sun.activation.javax.activation were has no
# bundle of its own: they get the names of Jakarta EE 9.1.
BUNDLES_10 = {
    "javax.annotation-api": "2.1.0", "javax.el-api": "5.0.0", "javax.interceptor-api": "2.1.0", "javax.mail-api": "2.1.0",
    "javax.servlet-api": "6.0.0", "javax.servlet.jsp-api": "3.1.0", "javax.websocket-api": "2.1.0",
}

# The libraries of the Standard Tag Library, which have other URIs in Jakarta EE 10 (Standard Tag Library 3.0), and what stands
# before them in the old ones: in pages of JSTL 1.1 and 1.2, and in Facelets of Faces 2.2 and 2.3.
TAGS = ["core", "fmt", "functions", "sql", "xml"]
OLD_TAGS = ["http://java.sun.com/jsp/jstl/", "http://xmlns.jcp.org/jsp/jstl/"]

# Fronts of names that are no names of packages, so that no form of a package below has them, each with what it is.
FRONTS = [
    ("javax.servlet.include.", "the front of names of attributes of a request (Servlet)"),
    ("javax.servlet.forward.", "the same"),
    ("javax.servlet.async.", "the same"),
    ("javax.servlet.error.", "the same"),
    ("javax.servlet.context.", "the same"),
    ("javax.servlet.request.", "the same"),
    ("/javax.faces.resource", "the path of resources (Faces)"),
    ("javax.xml.bind.DatatypeConverter.", "the front of calls in code that a compiler of schemas writes (XML Binding)"),
]

# Keys of the APIs that are no dotted names, each with where it is from.
KEYS = [
    ("javax.persistence.schema-generation.connection", "Persistence 2.1, 8.2.1.9 and 9.4; found in EclipseLink 2.7"),
    ("javax.persistence.schema-generation.create-database-schemas", "the same"),
    ("javax.persistence.schema-generation.create-script-source", "the same"),
    ("javax.persistence.schema-generation.create-source", "the same"),
    ("javax.persistence.schema-generation.database.action", "the same"),
    ("javax.persistence.schema-generation.drop-script-source", "the same"),
    ("javax.persistence.schema-generation.drop-source", "the same"),
    ("javax.persistence.schema-generation.scripts.action", "the same"),
    ("javax.persistence.schema-generation.scripts.create-target", "the same"),
    ("javax.persistence.schema-generation.scripts.drop-target", "the same"),
    ("javax.persistence.sql-load-script-source", "the same"),
    ("javax.persistence.database-product-name", "the same"),
    ("javax.persistence.database-major-version", "the same"),
    ("javax.persistence.database-minor-version", "the same"),
    ("javax.persistence.validation.group.pre-persist",
     "Persistence 2.0, 3.6.1.2 and 8.2.1.9; found in EclipseLink 2.7 and OpenJPA 2.4"),
    ("javax.persistence.validation.group.pre-update", "the same"),
    ("javax.persistence.validation.group.pre-remove", "the same"),
    ("javax.persistence.schema-generation.", "the front of these keys; known, not measured"),
    ("javax.persistence.validation.group.", "the same"),
    ("javax.persistence.validation.group.pre-", "the same"),
    ("javax.persistence.create-database-schemas", "Hibernate's name of such a key; known, not measured"),
    ("javax.persistence.schema-generation-connection", "the same"),
    ("javax.xml.soap.character-set-encoding",
     "SOAP with Attachments 1.3, SOAPMessage.CHARACTER_SET_ENCODING; found in the API and in XMLBeans 4.0"),
    ("javax.xml.soap.write-xml-declaration", "the same, SOAPMessage.WRITE_XML_DECLARATION"),
]

# Names in which a registry has a service (OpenJPA 2.4).
REGISTERED = ["aries:services/javax.transaction.TransactionManager", "(objectClass=javax.transaction.TransactionManager)"]

# Types of the APIs for which a file of META-INF/services is looked up, by who looks it up.
SERVICES = [
    ("Batch (BatchRuntime)", ["batch.operations.JobOperator"]),
    ("Contexts and Dependency Injection (CDI, SeContainerInitializer, and the containers)", [
        "enterprise.inject.se.SeContainerInitializer", "enterprise.inject.spi.CDIProvider",
        "enterprise.inject.spi.Extension"]),
    ("Enterprise Beans (EJBContainer)", ["ejb.spi.EJBContainerProvider"]),
    ("Expression Language (ExpressionFactory)", ["el.ExpressionFactory"]),
    ("Faces (FactoryFinder)", [
        "faces.application.ApplicationFactory", "faces.component.search.SearchExpressionContextFactory",
        "faces.component.visit.VisitContextFactory", "faces.context.ExceptionHandlerFactory",
        "faces.context.ExternalContextFactory", "faces.context.FacesContextFactory", "faces.context.FlashFactory",
        "faces.context.PartialViewContextFactory", "faces.flow.FlowHandlerFactory", "faces.lifecycle.ClientWindowFactory",
        "faces.lifecycle.LifecycleFactory", "faces.render.RenderKitFactory", "faces.view.ViewDeclarationLanguageFactory",
        "faces.view.facelets.FaceletCacheFactory", "faces.view.facelets.TagHandlerDelegateFactory"]),
    ("JSON Binding (JsonbProvider) and Processing (JsonProvider)", ["json.bind.spi.JsonbProvider", "json.spi.JsonProvider"]),
    ("Mail (Session)", ["mail.Provider"]),
    ("Persistence (PersistenceProviderResolverHolder)", ["persistence.spi.PersistenceProvider"]),
    ("Servlet (the containers)", ["servlet.ServletContainerInitializer"]),
    ("Bean Validation (Validation, and the implementations)", [
        "validation.ConstraintValidator", "validation.spi.ValidationProvider", "validation.valueextraction.ValueExtractor"]),
    ("WebSocket (ContainerProvider, ServerEndpointConfig)", [
        "websocket.ContainerProvider", "websocket.server.ServerEndpointConfig$Configurator",
        "websocket.server.ServerEndpointConfig.Configurator"]),
    ("RESTful Web Services (RuntimeDelegate, ClientBuilder, SseEventSource, and the implementations)", [
        "ws.rs.client.ClientBuilder", "ws.rs.container.DynamicFeature", "ws.rs.core.Feature", "ws.rs.ext.Providers",
        "ws.rs.ext.RuntimeDelegate", "ws.rs.sse.SseEventSource.Builder"]),
    ("XML Binding (JAXBContext)", ["xml.bind.JAXBContext", "xml.bind.JAXBContextFactory"]),
    ("SOAP with Attachments (FactoryFinder)", [
        "xml.soap.MessageFactory", "xml.soap.MetaFactory", "xml.soap.SAAJMetaFactory", "xml.soap.SOAPConnectionFactory",
        "xml.soap.SOAPFactory"]),
    ("XML Web Services (Provider)", ["xml.ws.spi.Provider"]),
]

# The constraints whose annotations name a message.
CONSTRAINTS = [
    "AssertFalse", "AssertTrue", "DecimalMax", "DecimalMin", "Digits", "Email", "Future", "FutureOrPresent", "Max", "Min",
    "Negative", "NegativeOrZero", "NotBlank", "NotEmpty", "NotNull", "Null", "Past", "PastOrPresent", "Pattern", "Positive",
    "PositiveOrZero", "Size"]

JAVAEE = ["http://xmlns.jcp.org/xml/ns/javaee", "http://java.sun.com/xml/ns/javaee", "http://java.sun.com/xml/ns/j2ee"]
NEW_JAVAEE = "https://jakarta.ee/xml/ns/jakartaee"


def javaee():
    return [(old, NEW_JAVAEE) for old in JAVAEE]


# Kinds of descriptors: the name of the rule file; what it is; patterns; namespaces; schemas (old names, new name); old
# versions and the new one.
KINDS = [
    ("web", "web-app and web-fragment", ["web.xml", "*/web.xml", "web-fragment.xml", "*/web-fragment.xml"], javaee(), [
        ([f"web-{kind}_{old}.xsd" for old in ("2_4", "2_5", "3_0", "3_1", "4_0")], f"web-{kind}_5_0.xsd")
        for kind in ("app", "fragment", "common")], (["2.4", "2.5", "3.0", "3.1", "4.0"], "5.0")),
    ("tld", "tag libraries of Server Pages", ["*.tld"], javaee(),
     [(["web-jsptaglibrary_2_0.xsd", "web-jsptaglibrary_2_1.xsd"], "web-jsptaglibrary_3_0.xsd")],
     (["2.0", "2.1"], "3.0")),
    ("faces", "faces-config", ["faces-config.xml", "*/faces-config.xml", "*.faces-config.xml"], javaee(),
     [([f"web-facesconfig_{old}.xsd" for old in ("1_2", "2_0", "2_1", "2_2", "2_3")], "web-facesconfig_3_0.xsd")],
     (["1.2", "2.0", "2.1", "2.2", "2.3"], "3.0")),
    ("facelets", "tag libraries of Facelets", ["*.taglib.xml"], javaee(),
     [([f"web-facelettaglibrary_{old}.xsd" for old in ("2_0", "2_2", "2_3")], "web-facelettaglibrary_3_0.xsd")],
     (["2.0", "2.2", "2.3"], "3.0")),
    ("beans", "beans of Contexts and Dependency Injection", ["*META-INF/beans.xml", "*WEB-INF/beans.xml"], javaee(),
     [([f"beans_{old}.xsd" for old in ("1_0", "1_1", "2_0")], "beans_3_0.xsd")], (["1.0", "1.1", "2.0"], "3.0")),
    ("ejb", "ejb-jar", ["*META-INF/ejb-jar.xml", "*WEB-INF/ejb-jar.xml"], javaee(),
     [([f"ejb-jar_{old}.xsd" for old in ("2_1", "3_0", "3_1", "3_2")], "ejb-jar_4_0.xsd")],
     (["2.1", "3.0", "3.1", "3.2"], "4.0")),
    ("application", "application and application-client",
     ["*META-INF/application.xml", "*META-INF/application-client.xml"], javaee(), [
         ([f"{kind}_{old}.xsd" for old in ("1_4", "5", "6", "7", "8")], f"{kind}_9.xsd")
         for kind in ("application", "application-client")], (["1.4", "5", "6", "7", "8"], "9")),
    ("connector", "connector", ["*META-INF/ra.xml"], javaee(),
     [([f"connector_{old}.xsd" for old in ("1_5", "1_6", "1_7")], "connector_2_0.xsd")], (["1.5", "1.6", "1.7"], "2.0")),
    ("webservices", "webservices", ["*META-INF/webservices.xml", "*WEB-INF/webservices.xml"], javaee(), [
        ([f"javaee_web_services_{old}.xsd" for old in ("1_2", "1_3", "1_4")] + ["j2ee_web_services_1_1.xsd"],
         "jakartaee_web_services_2_0.xsd")], (["1.1", "1.2", "1.3", "1.4"], "2.0")),
    ("permissions", "permissions", ["*META-INF/permissions.xml"], javaee(),
     [(["permissions_7.xsd"], "permissions_9.xsd")], (["7"], "9")),
    ("batch", "jobs of Batch", ["*META-INF/batch.xml", "*META-INF/batch-jobs/*.xml"], javaee(),
     [(["jobXML_1_0.xsd"], "jobXML_2_0.xsd"), (["batchXML_1_0.xsd"], "batchXML_2_0.xsd")], (["1.0"], "2.0")),
    ("persistence", "persistence and orm", ["*META-INF/persistence.xml", "*/orm.xml", "*-orm.xml"], [
        (old, "https://jakarta.ee/xml/ns/persistence")
        for old in ("http://xmlns.jcp.org/xml/ns/persistence", "http://java.sun.com/xml/ns/persistence")], [
            ([f"{kind}_{old}.xsd" for old in ("1_0", "2_0", "2_1", "2_2")], f"{kind}_3_0.xsd")
            for kind in ("persistence", "orm")], (["1.0", "2.0", "2.1", "2.2"], "3.0")),
    ("validation", "configuration and mappings of Bean Validation",
     ["*META-INF/validation.xml", "*META-INF/validation/*.xml", "*constraint-mapping*.xml", "*META-INF/constraints*.xml"], [
         (f"{front}/{kind}", f"https://jakarta.ee/xml/ns/validation/{kind}")
         for kind in ("configuration", "mapping")
         for front in ("http://xmlns.jcp.org/xml/ns/validation", "http://jboss.org/xml/ns/javax/validation")], [
             ([f"validation-{kind}-{old}.xsd" for old in ("1.0", "1.1", "2.0")], f"validation-{kind}-3.0.xsd")
             for kind in ("configuration", "mapping")], (["1.0", "1.1", "2.0"], "3.0")),
    ("jaxb", "bindings and episodes of XML Binding", ["*.xjb", "*.episode"], [
        ("http://java.sun.com/xml/ns/jaxb/xjc", "http://java.sun.com/xml/ns/jaxb/xjc"),
        ("http://java.sun.com/xml/ns/jaxb", "https://jakarta.ee/xml/ns/jaxb")],
     [(["bindingschema_1_0.xsd", "bindingschema_2_0.xsd"], "bindingschema_3_0.xsd")], (["1.0", "2.0", "2.1"], "3.0")),
]

# Files whose packages alone change: patterns and their origin.
PAGES = [
    (["*.jsp", "*.jspx", "*.jspf", "*.tag", "*.tagx", "*.xhtml"], "pages; measured"),
    (["*.tagf", "*.ftl", "*.vm"], "pages; known, not measured"),
    (["*.js"], "scripts of pages, which name parameters of Faces (javax.faces.ViewState); known, not measured"),
    (["*.properties", "*.factories", "*.json", "*.yml"], "settings; measured"),
    (["*.yaml", "*.bnd"], "settings; known, not measured"),
    (["*.java", "*.groovy"], "sources; measured"),
    (["*.kt"], "sources; known, not measured"),
    (["*.xml"], "all other descriptors; measured. Their namespaces stay"),
]

# Kinds of descriptors that weren't among the files that were measured.
KNOWN = ("facelets", "jaxb")

# How many bytes a rule file may have.
MOST = 1048576

# The line by which a rule file says that most of its rules may well meet nothing in one application.
FOR_ANY = "# for any application"

# What may stand behind the name of a package in a text.
BEHIND = (".", ",", ";", '"', "'", "<")


def key(text):
    """A text as a key of a property file."""
    escaped = "".join("\\" + c if c in ":= \\" else c for c in text).replace("\x01", "\\u0001")
    return "\\" + escaped if escaped[:1] in ("#", "!") else escaped


def value(text):
    """A text as a value of a property file."""
    return text.replace("\\", "\\\\").replace("\x01", "\\u0001")


def line(old, new):
    return f"{key(old)}={value(new)}"


def moved(ready):
    """The packages with a rename of their own, each with what it is."""
    rows = [(name, f"{spec} (EE 9)") for name, spec, _, _, _ in MOVED if name not in WITHIN]
    if ready.annotations:
        rows = [row for row in rows if not row[0].startswith("annotation.")]
        rows.append(("annotation", "Annotations, JSR 250 (EE 9), and with them JSR 305: see docs/RULES.md"))
    return sorted(rows)


def stays(ready):
    return [row[:3] for row in STAY if ready.annotations or not row[3]]


def renames(ready):
    lines = [f"# Java EE 8 to Jakarta EE {ready.edition}: each package that moved, with all packages below it."]
    for name, what in moved(ready):
        lines += [f"# {what}; measured, peer", f"javax.{name}.*=jakarta.{name}"]
    lines += ["", "# Exceptions: packages below these that stay."]
    for name, below, why in stays(ready):
        lines += [f"# {why}", f"javax.{name}{below}=javax.{name}"]
    return lines


def versions(ready):
    lines = [f"# Versions of the packages of Jakarta EE {ready.edition} for OSGi: a range for Import-Package, a version for "
             "Export-Package."]
    rows = MOVED + [ANNOTATIONS] if ready.annotations else MOVED
    for name, spec, version, end, below in sorted(rows, key=lambda row: row[0]):
        if ready.edition == "10":
            version, end = VERSIONS_10.get(name, (version, end))
        if below:
            lines.append(f"# {spec} {version} (EE {ready.edition.split('.')[0]})")
        for part in below:
            package = f"{name}.{part}" if part else name
            if ready.edition != "10" or package not in GONE_10:
                lines.append(f"jakarta.{package}=[{version},{end});{version}.0")
    return lines


def bundles(ready):
    lines = [f"# Symbolic names of bundles that have another one in Jakarta EE {ready.edition}, and their first version."]
    for old, new, version, origin, only in BUNDLES:
        if ready.edition == "10" and old in BUNDLES_10:
            version, origin = BUNDLES_10[old], origin.split(";")[0] + "; version by EE 10"
        if ready.annotations or not only:
            lines += [f"# {origin}", f"{old}={new};{version}"]
    return lines


def image(package, ready):
    """What the renames of a set make of a package."""
    fits = [(len(name), new + package[len(name):]) for name, below, new in pairs(ready)
            if package == name or below and package.startswith(name + ".")]
    return max(fits)[1] if fits else package


def pairs(ready):
    """The renames of a set: a package, whether those below it are meant too, and the new package."""
    rows = [(f"javax.{name}", True, f"jakarta.{name}") for name, _ in moved(ready)]
    return rows + [(f"javax.{name}", below != "", f"javax.{name}") for name, below, _ in stays(ready)]


def new_text(text):
    """A text that holds one name, with the new name of what moved."""
    return text.replace("javax", "jakarta", 1)


def api_names():
    """The binary names of the public classes of the APIs, and the paths of the files beside them, by their packages."""
    found = collections.defaultdict(list)
    with open(os.path.join(os.path.dirname(os.path.abspath(__file__)), "api_classes.txt"), encoding="utf-8") as file:
        for name in file.read().split("\n"):
            if name and not name.startswith("#"):
                package = os.path.dirname(name).replace("/", ".") if "/" in name else name.rpartition(".")[0]
                found[package].append(name)
    return found


def package_forms(package):
    """The ways in which code writes a package, or the front of the names in it."""
    path = package.replace(".", "/")
    return [path, f"{path}/", f"/{path}/", f"L{path}", f"L{path}/", package + ".", package + ".*", package + ".\x01"]


def name_forms(name):
    """The ways in which code writes a class, but for the dotted name, which a rename changes, or a file. Nobody has arrays of
    exceptions, or looks up the class file of an exception or of a class within another."""
    if "/" in name:
        return [name, "/" + name]
    path = name.replace(".", "/")
    written = [path, f"L{path};"]
    if not name.endswith(("Exception", "Error")):
        written += [f"[L{path};", f"[L{name};"]
        if "$" not in name:
            written += [path + ".class", f"/{path}.class"]
    return written


def forms(ready):
    """Direct rules for each form of each package and each class of the APIs that the set renames."""
    classes = api_names()
    packages = {old for old, _, new in pairs(ready) if old != new}
    packages |= {it for it in classes if image(it, ready) != it}
    lines = ["# Packages of the APIs, as paths, as fronts of descriptors and of names, and in imports of generated code."]
    for package in sorted(packages):
        lines += [line(old, new_text(old)) for old in package_forms(package)]
    lines.append("# Classes of the APIs (tools/api_classes.txt), as paths, files, descriptors and arrays, by their packages.")
    for package in sorted(classes):
        if image(package, ready) != package:
            lines.append(f"# {package}")
            lines += [line(old, new_text(old)) for name in classes[package] for old in name_forms(name)]
    return lines


def tags():
    """The old and the new URI of each library of the Standard Tag Library."""
    return [(old + name, f"jakarta.tags.{name}") for old in OLD_TAGS for name in TAGS]


def direct(ready):
    lines = [
        "# Strings in classes that are no dotted names. A string that names a package or a class follows by the renames.",
    ]
    if ready.edition == "10":
        lines.append("# The URIs of the Standard Tag Library (Standard Tag Library 3.0).")
        lines += [line(old, new) for old, new in tags()]
    else:
        lines.append("# The URIs of the Standard Tag Library aren't here: they stayed in Jakarta EE 9.")
    for old, why in FRONTS:
        lines += [f"# {why}; measured", line(old, new_text(old))]
    lines += [
        "# The same fronts as compilers for Java 9 and later write them, where code joins them with one value: U+0001 stands",
        "# for the value (java.lang.invoke.StringConcatFactory).",
    ]
    lines += [line(old + "\x01", new_text(old) + "\x01") for old, _ in FRONTS]
    lines.append("# Keys that are no dotted names. The other APIs have none: Faces, Contexts and Dependency Injection, Enterprise Beans, XML")
    lines.append("# Web Services, Servlet and WebSocket name theirs with dots alone, and Mail's begin with `mail.`.")
    for old, why in KEYS:
        lines += [f"# {why}", line(old, new_text(old))]
    lines.append("# Keys of messages in the annotations of constraints (Bean Validation 2.0); found in the API of 1.1.")
    for name in CONSTRAINTS:
        key_of = f"{{javax.validation.constraints.{name}.message}}"
        lines.append(line(key_of, new_text(key_of)))
    lines.append("# Names by which registries of OSGi have a service; measured (OpenJPA 2.4)")
    lines += [line(old, new_text(old)) for old in REGISTERED]
    lines.append("# Names of service files, by who looks them up (the type's name is the file's).")
    for who, types in SERVICES:
        lines.append(f"# {who}")
        for front in ("META-INF/services/javax.", "/META-INF/services/javax."):
            lines += [line(front + name, new_text(front) + name) for name in types]
    return lines + forms(ready)


def packages(ready):
    """Text rules for names of packages."""
    lines = ["# Names of packages that stay, whole, so that no shorter name below renames them."]
    for name, _, why in stays(ready):
        lines += [f"# {why}", line(f"javax.{name}", f"javax.{name}")]
    lines += ["", "# Names of packages that moved (EE 9, measured), by what stands behind them."]
    for name, _ in moved(ready):
        for behind in BEHIND:
            lines.append(line(f"javax.{name}{behind}", f"jakarta.{name}{behind}"))
    if ready.edition == "10":
        lines += ["", "# The URIs of the Standard Tag Library (Standard Tag Library 3.0), by what stands behind them."]
        lines += [line(old + behind, new + behind) for old, new in tags() for behind in ('"', "'", "<")]
    return lines


def quoted_versions(versions):
    """The ways in which a version is written as an attribute."""
    for version in versions:
        for equals in ("=", " = "):
            for quote in ('"', "'"):
                yield f"version{equals}{quote}{version}{quote}"


def kind(row, ready):
    name, what, _, spaces, schemas, (old_versions, new_version) = row
    origin = "EE 9; known, not measured" if name in KNOWN else "EE 9; measured"
    lines = [f"# Descriptors: {what}. Namespace, schema and version move together ({origin}).", "# The namespace."]
    lines += [line(old, new) for old, new in spaces]
    lines.append("# The schema.")
    for old_names, new_name in schemas:
        lines += [line(old, new_name) for old in old_names]
    if "1.0" in old_versions:
        lines.append("# The version of XML itself stays.")
        for text in quoted_versions(["1.0"]):
            lines.append(line(f"<?xml {text}", f"<?xml {text}"))
    lines.append("# The version of the descriptor.")
    for text in quoted_versions(old_versions):
        old = text[text.index("n") + 1:].strip(" =")[1:-1]
        lines.append(line(text, text.replace(old, new_version)))
    return lines + [""] + packages(ready)


def texts():
    lines = [
        "# Which text rules a file follows: those of the first pattern, from the top, that fits its path.",
        "# Descriptors by their names; then pages, settings and sources, whose packages alone change.",
    ]
    for name, what, patterns, *_ in KINDS:
        lines.append(f"# {what}; {'known, not measured' if name in KNOWN else 'measured'}")
        lines += [f"{key(pattern)}=text-{name}.properties" for pattern in patterns]
    for patterns, what in PAGES:
        lines.append(f"# {what}")
        lines += [f"{key(pattern)}=text-packages.properties" for pattern in patterns]
    return lines


def selection():
    """What isn't selected, and is copied as it is."""
    return [
        "# What isn't selected, and is copied as it is.",
        "# The descriptions of Maven: a group that moves beside an artifact that doesn't (jakarta.servlet, javax.servlet-api) is the",
        "# name of no library. Whoever reads a pom.xml of an archive asks from what it was built.",
        "META-INF/maven/*=!",
        "*/META-INF/maven/*=!",
    ]


def for_any(lines):
    """A rule file for any application: of those that meet nothing in one none is told."""
    return [FOR_ANY] + lines


def write(folder, name, lines):
    text = "\n".join(lines) + "\n"
    if len(text.encode("utf-8")) > MOST:
        sys.exit(f"{folder}/{name} would have {len(text)} bytes, and a rule file has at most {MOST}")
    with open(os.path.join(folder, name), "w", encoding="utf-8") as file:
        file.write(text)


def write_set(to, ready):
    folder = os.path.join(to, ready.folder)
    os.makedirs(folder, exist_ok=True)
    write(folder, "renames.properties", for_any(renames(ready)))
    write(folder, "versions.properties", for_any(versions(ready)))
    write(folder, "bundles.properties", for_any(bundles(ready)))
    write(folder, "direct.properties", for_any(direct(ready)))
    write(folder, "selection.properties", selection())
    write(folder, "text.properties", texts())
    write(folder, "text-packages.properties", ["# Pages, settings, sources and other descriptors."] + packages(ready))
    for row in KINDS:
        write(folder, f"text-{row[0]}.properties", kind(row, ready))


def main():
    top = os.path.join(os.path.dirname(os.path.abspath(__file__)), "..", "rules")
    to = sys.argv[1] if len(sys.argv) > 1 else top
    for ready in SETS:
        write_set(to, ready)


if __name__ == "__main__":
    main()
