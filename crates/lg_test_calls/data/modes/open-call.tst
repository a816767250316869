.code prolog prepare ret epilog
