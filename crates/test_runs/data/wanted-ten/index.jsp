<%@ page import="jakarta.servlet.http.Cookie,jakarta.el.*" %>
<%@ taglib prefix="c" uri="jakarta.tags.core" %>
