#!/usr/bin/env bash
# Implementations of Java EE that an application brings read their descriptors in the namespaces of Java EE alone. Migrates one
# with EclipseLink 2.7, OpenJPA 2.4 and Hibernate Validator 5.3, each with a descriptor, by rules/jakarta-ee-9 and by the copy of
# it that docs/WAR.md makes, which keeps these descriptors: under the first each shows its sign, under the second all run as they
# did before. Skipped with a line where a package is missing: apt-get install libeclipselink-java libjpa-2.1-spec-java
# libopenjpa-java libgeronimo-jpa-2.0-spec-java libhibernate-validator-java libgeronimo-validation-1.1-spec-java libjaxb-java
# libtomcat9-java libtomcat10-java
set -u
cd "$(dirname "$0")/.."
. tests/common.sh
needs java javac python3
java=/usr/share/java
link="eclipselink eclipselink-jpa-2.1-spec"
open="openjpa geronimo-jpa_2.0_spec geronimo-jta-1.2-spec geronimo-jms_1.1_spec serp commons-lang commons-collections3 commons-pool
  xbean-asm5-shaded"
check="hibernate-validator classmate jboss-logging jaxb-api jaxb-runtime jaxb-core txw2 istack-commons-runtime javax.activation"
spec=geronimo-validation-1.1-spec
for name in $link $open $check $spec tomcat9-el-api tomcat9-jasper-el tomcat10-el-api tomcat10-jasper-el; do
  [ -f "$java/$name.jar" ] || lacks "$java/$name.jar isn't here"
done
top=$PWD

mkdir -p "$place/old/lib"
for name in $link $open $check $spec; do
  tools/unpack.py "$java/$name.jar" "$place/old/lib/$name.jar" 2>"$place/said" || { cat "$place/said" >&2; exit 1; }
done
cp -r rules "$place/rules"
cd "$place" || exit 1
rm -f old/lib/*.entries

# ---- the application

mkdir source
cat >source/Main.java <<'END'
import javax.persistence.Persistence;
import javax.validation.Validation;
import javax.validation.constraints.NotNull;

/** Prints whether a persistence unit of this name is there, or, for `check`, how many constraints an item breaks. */
public class Main {
    public static class Item {
        @NotNull
        public String name;
    }

    public static void main(String[] words) {
        try {
            System.out.println(words[0].equals("check") ? broken() : opened(words[0]));
        } catch (RuntimeException fault) {
            Throwable cause = fault;
            while (cause.getCause() != null) {
                cause = cause.getCause();
            }
            System.out.println(cause.getMessage());
        }
    }

    private static String broken() {
        return "broken: " + Validation.buildDefaultValidatorFactory().getValidator().validate(new Item()).size();
    }

    private static String opened(String name) {
        return "opened: " + Persistence.createEntityManagerFactory(name).isOpen();
    }
}
END
for name in link open check; do
  mkdir -p "old/$name/WEB-INF/classes/META-INF"
  javac -d "old/$name/WEB-INF/classes" -cp "$java/eclipselink-jpa-2.1-spec.jar:$java/$spec.jar" source/Main.java || exit 1
done

# unit NAME PROVIDER SPACE VERSION: the descriptor of a persistence unit
unit() {
  cat >"old/$1/WEB-INF/classes/META-INF/persistence.xml" <<END
<?xml version="1.0" encoding="UTF-8"?>
<persistence xmlns="$3" xmlns:xsi="http://www.w3.org/2001/XMLSchema-instance"
    xsi:schemaLocation="$3 $3/persistence_${4/./_}.xsd" version="$4">
  <persistence-unit name="$1">
    <provider>$2</provider>
    <properties><property name="javax.persistence.jdbc.driver" value="java.lang.Object"/></properties>
  </persistence-unit>
</persistence>
END
}

unit link org.eclipse.persistence.jpa.PersistenceProvider http://xmlns.jcp.org/xml/ns/persistence 2.1
unit open org.apache.openjpa.persistence.PersistenceProviderImpl http://java.sun.com/xml/ns/persistence 2.0
cat >old/check/WEB-INF/classes/META-INF/validation.xml <<'END'
<?xml version="1.0" encoding="UTF-8"?>
<validation-config xmlns="http://jboss.org/xml/ns/javax/validation/configuration" version="1.1">
  <default-provider>org.hibernate.validator.HibernateValidator</default-provider>
</validation-config>
END

# ---- what each prints

# ran FOLDER TOMCAT: a line for each of the three, where Tomcat has the expressions of messages
ran() {
  local name path library
  for name in link open check; do
    path=$1/$name/WEB-INF/classes:$java/tomcat$2-el-api.jar:$java/tomcat$2-jasper-el.jar:$java/tomcat$2-juli.jar
    for library in ${!name} $spec; do path=$path:$1/lib/$library.jar; done
    java -cp "$path" Main "$name" 2>>said | grep -oE 'opened: .*|broken: .*|HV[0-9]+: Unsupported.*|cvc-[^:]*: .*|No Persistence.*' |
      sed "s/^/$name: /"
  done
}

cat >wanted <<'END'
link: opened: true
open: opened: true
check: broken: 1
END
ran old 9 >got
same "the application before" wanted got

"$program" run --rules rules/jakarta-ee-9 --from old --to new --ledger ledger >report || cat report >&2
cat >signs <<'END'
link: No Persistence provider for EntityManager named link
open: cvc-elt.1.a: Cannot find the declaration of element 'persistence'.
check: HV000122: Unsupported schema version for META-INF/validation.xml: 3.0.
END
ran new 10 >got
same "the signs of descriptors that moved" signs got

cp -r rules/jakarta-ee-9 myrules
for path in link/WEB-INF/classes/META-INF/persistence.xml open/WEB-INF/classes/META-INF/persistence.xml \
  check/WEB-INF/classes/META-INF/validation.xml; do
  echo "$path=text-packages.properties"
done >myrules/text.properties
cat rules/jakarta-ee-9/text.properties >>myrules/text.properties
"$program" run --rules myrules --from old --to kept --ledger ledger-kept >report || cat report >&2
ran kept 10 >got
same "the application with its descriptors kept" wanted got
grep -q 'name="jakarta.persistence.jdbc.driver"' kept/link/WEB-INF/classes/META-INF/persistence.xml || failed=$((failed + 1))

ended
