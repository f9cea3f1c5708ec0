program hello(output);
begin writeln('hi') end.
