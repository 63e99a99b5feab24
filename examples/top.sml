print "an expression may stand at a source's top\n";
"its value is " ^ "it\n";
print it;
