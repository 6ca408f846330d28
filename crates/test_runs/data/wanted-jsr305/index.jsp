<%@ page import="jakarta.servlet.http.Cookie,jakarta.el.*" %>
<%@ taglib prefix="c" uri="http://java.sun.com/jsp/jstl/core" %>
