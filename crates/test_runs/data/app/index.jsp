<%@ page import="javax.servlet.http.Cookie,javax.el.*" %>
<%@ taglib prefix="c" uri="http://java.sun.com/jsp/jstl/core" %>
