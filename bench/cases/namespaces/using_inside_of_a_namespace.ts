namespace N { using x = f(); }
