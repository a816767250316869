.code prolog ret epilog
