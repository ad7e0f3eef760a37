export as namespace N;
