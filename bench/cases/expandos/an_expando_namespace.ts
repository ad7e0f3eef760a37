function q() {} q.x = 1;
