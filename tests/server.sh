#!/usr/bin/env bash
# Runs the example's web application in two real servers of Debian: the archive of Java EE 8 in Tomcat 9 and the migrated one
# in Tomcat 10, which reads its descriptors with validation. Each page answers alike: the servlet of an annotation, on whose
# annotations of JSR 250 the server acts, the one that looks up names in each form of strings, that of an initializer's service
# file, the page with the Standard Tag Library and a tag of its own, the page of errors, and two files. Beside it in Tomcat 10
# stand the archive of Java EE 8, which must not run there; the application by rules/jakarta-ee-10, with the new URIs of the
# Standard Tag Library; and by rules/jakarta-ee-9-jsr305, under which the server passes over JSR 250. The servers listen on free
# ports of 127.0.0.1, and each is ended by its own process id. Skipped with a line where a package is missing:
# apt-get install libtomcat9-java libtomcat10-java libtaglibs-standard-spec-java libtaglibs-standard-impl-java libjsr305-java
set -u
cd "$(dirname "$0")/.."
. tests/common.sh
needs java javac curl python3
java=/usr/share/java
for jar in tomcat9-catalina tomcat10-catalina taglibs-standard-spec taglibs-standard-impl jsr305; do
  [ -f "$java/$jar.jar" ] || lacks "$java/$jar.jar isn't here"
done
pids=
trap 'for pid in $pids; do kill "$pid" 2>/dev/null; done; wait 2>/dev/null; rm -rf "$place"' EXIT

examples/war/run.sh "$place/war" >"$place/built" || { cat "$place/built" >&2; exit 1; }

# packed NAME RULES: the application by other rules, as NAME.war
packed() {
  "$program" run --rules "rules/$2" --from "$place/war/app" --to "$place/$1" --ledger "$place/$1.ledger" >"$place/$1.report" &&
    tools/pack.py "$place/$1" "$place/$1.war" "$place/war/app.entries" "$place/$1.report"
}

packed ten jakarta-ee-10 && packed left jakarta-ee-9-jsr305 || exit 1
cd "$place" || exit 1

# ---- the servers

# class_path VERSION: the server's archives, and the compiler of pages
class_path() {
  local part path=$java/eclipse-jdt-core.jar
  [ -f "$java/ecj.jar" ] && path=$java/ecj.jar
  for part in annotations-api api catalina coyote el-api jasper jasper-el jaspic-api jni jsp-api juli servlet-api util util-scan \
    websocket websocket-api websocket-client-api; do
    [ -f "$java/tomcat$1-$part.jar" ] && path=$path:$java/tomcat$1-$part.jar
  done
  printf '%s' "$path"
}

free_port() {
  python3 -c 'import socket; s = socket.socket(); s.bind(("127.0.0.1", 0)); print(s.getsockname()[1])'
}

# start VERSION ARCHIVE [OTHER..]: starts a server with the archive as /shop, and the others by their names; its port is
# port_VERSION
start() {
  local base=$place/tomcat$1 port other
  port=$(free_port)
  mkdir -p "$base/conf" "$base/webapps" "$base/logs" "$base/temp" "$base/work"
  cp "$2" "$base/webapps/shop.war"
  for other in "${@:3}"; do cp "$other" "$base/webapps/"; done
  cat >"$base/conf/server.xml" <<END
<Server port="-1">
  <Listener className="org.apache.catalina.startup.VersionLoggerListener"/>
  <Service name="Catalina">
    <Connector port="$port" address="127.0.0.1" protocol="HTTP/1.1"/>
    <Engine name="Catalina" defaultHost="localhost">
      <Host name="localhost" appBase="webapps" autoDeploy="false"/>
    </Engine>
  </Service>
</Server>
END
  cat >"$base/conf/context.xml" <<'END'
<Context xmlValidation="true" xmlNamespaceAware="true" tldValidation="true"/>
END
  local space=http://xmlns.jcp.org/xml/ns/javaee schema=4_0
  [ "$1" = 9 ] || space=https://jakarta.ee/xml/ns/jakartaee schema=6_0
  cat >"$base/conf/web.xml" <<END
<web-app xmlns="$space" version="${schema/_/.}" xmlns:xsi="http://www.w3.org/2001/XMLSchema-instance"
    xsi:schemaLocation="$space $space/web-app_$schema.xsd">
  <servlet>
    <servlet-name>default</servlet-name>
    <servlet-class>org.apache.catalina.servlets.DefaultServlet</servlet-class>
  </servlet>
  <servlet>
    <servlet-name>jsp</servlet-name>
    <servlet-class>org.apache.jasper.servlet.JspServlet</servlet-class>
  </servlet>
  <servlet-mapping><servlet-name>default</servlet-name><url-pattern>/</url-pattern></servlet-mapping>
  <servlet-mapping><servlet-name>jsp</servlet-name><url-pattern>*.jsp</url-pattern></servlet-mapping>
</web-app>
END
  : >"$base/conf/catalina.properties"
  java -Dcatalina.home="$base" -Dcatalina.base="$base" -Djava.io.tmpdir="$base/temp" \
    -Dcatalina.config="file:$base/conf/catalina.properties" -cp "$(class_path "$1")" \
    org.apache.catalina.startup.Bootstrap start >"$base/log" 2>&1 &
  pids="$pids $!"
  eval "port_$1=$port pid_$1=$!"
}

# answered VERSION: waits until the server answers, at most two minutes
answered() {
  local port pid _
  eval "port=\$port_$1 pid=\$pid_$1"
  for _ in $(seq 240); do
    kill -0 "$pid" 2>/dev/null || break
    curl -s -f -o /dev/null "http://127.0.0.1:$port/shop/hello" && return 0
    grep -q 'Server startup in' "$place/tomcat$1/log" && break
    sleep 0.5
  done
  echo "Tomcat $1 didn't answer:" >&2
  tail -40 "$place/tomcat$1/log" >&2
  return 1
}

# page VERSION PATH [NAME]: the status, the type and the text of a page of /shop, or of another archive
page() {
  local port
  eval "port=\$port_$1"
  curl -s --path-as-is -w '\nstatus %{http_code} %{content_type}\n' "http://127.0.0.1:$port/${3:-shop}/$2"
}

start 9 war/shop-ee8.war
start 10 war/shop.war war/shop-ee8.war ten.war left.war
answered 9 && answered 10 || exit 1

# ---- the pages

for path in '' hello forms registered missing 'pages%20of%20help/how%20to%20buy.txt' .well-known/security.txt; do
  page 9 "$path" >old
  page 10 "$path" >new
  same "the page /$path" old new
done

# What the pages must say, by hand: so that two pages of errors aren't taken for two pages that are alike.
page 10 hello >got
cat >wanted <<'END'
Welcome to the shop
started by the listener: the corner shop
passed the filter: marked
class of the bundle: HttpServlet
is it this servlet's: true
the owner, by the server: the owner of the shop
opened by the server: true
annotated for tools: true

status 200 text/plain;charset=UTF-8
END
same "the servlet's page" wanted got
page 10 forms >got
cat >wanted <<'END'
array: true
descriptor: true
file: true
file from the top: true
front: true
front of a path: true
key: create
path: true
service file: true

status 200 text/plain;charset=UTF-8
END
same "the page of forms" wanted got
page 10 missing >got
cat >wanted <<'END'
status by its name: 404
path by the prefix: /shop/missing
where: forwarded

status 404 text/plain;charset=UTF-8
END
same "the page of errors" wanted got
page 10 '' | tr -s ' \n' ' ' >got
printf ' <html> <body> <h1>Welcome to the shop</h1> <p>method GET, marked</p> <ul> <li>0.05</li> <li>1.20</li> <li>19.99</li> </ul> </body> </html> status 200 text/html;charset=UTF-8 ' >wanted
same "the page with tags" wanted got
page 10 registered >got
printf 'registered by the initializer at /registered\n\nstatus 200 text/plain;charset=UTF-8\n' >wanted
same "the page of the initializer" wanted got

# ---- the other sets of ready rules

for path in '' hello forms registered; do
  page 9 "$path" >old
  page 10 "$path" ten >new
  same "the page /$path by the rules for Jakarta EE 10" old new
done
grep -ho 'uri="[^"]*"' war/new/index.jsp ten/index.jsp >got
cat >wanted <<'END'
uri="http://java.sun.com/jsp/jstl/core"
uri="http://java.sun.com/jsp/jstl/fmt"
uri="http://shop.example/tags"
uri="jakarta.tags.core"
uri="jakarta.tags.fmt"
uri="http://shop.example/tags"
END
same "the URIs of tags" wanted got
page 10 hello left | sed -n '/by the server/p; /for tools/p' >got
cat >wanted <<'END'
the owner, by the server: null
opened by the server: false
annotated for tools: true
END
same "annotations that the server passes over" wanted got

# ---- what the server says of the descriptors, and that the old archive doesn't run there

grep 'reported processing' tomcat10/log | grep -cE 'webapps/(shop|ten|left)/' >got
printf '0\n' >wanted
same "faults in the descriptors of the new archives" wanted got
curl -s -o /dev/null -w '%{http_code}\n' "http://127.0.0.1:$port_10/shop-ee8/hello" >got
printf '404\n' >wanted
same "the old archive in Tomcat 10" wanted got

grep -o 'Server version name: .*' tomcat9/log tomcat10/log | sed 's/^[^:]*:[^:]*: */server: /'

ended
