class Point {}
export = Point;
