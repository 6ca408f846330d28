<%@ page contentType="text/html;charset=UTF-8" import="javax.servlet.http.HttpServletRequest" %>
<%@ taglib prefix="c" uri="http://java.sun.com/jsp/jstl/core" %>
<%@ taglib prefix="fmt" uri="http://java.sun.com/jsp/jstl/fmt" %>
<%@ taglib prefix="shop" uri="http://shop.example/tags" %>
<html>
<body>
<h1><fmt:message key="greeting"/></h1>
<% HttpServletRequest asked = request; %>
<p>method <%= asked.getMethod() %>, <c:out value="${requestScope['shop.filtered']}"/></p>
<ul>
<c:forEach var="cents" items="5,120,1999">
  <li><shop:price cents="${cents}"/></li>
</c:forEach>
</ul>
</body>
</html>
