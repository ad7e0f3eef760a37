import "./x";
