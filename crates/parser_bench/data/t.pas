program p;
var a: integer;
begin
  if a = 1 then a := (a + 2) * 3
end.
