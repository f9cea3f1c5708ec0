program p; begin writeln('hi') end.
