; debugger; {} f(); if (f()) return; while (f()) break; throw f(); const enum Size { S = "x", "L" }
