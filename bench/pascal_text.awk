# Writes a program of ISO Pascal of at most so many bytes: awk -v bytes=N -f fill.awk -f pascal_text.awk

# a procedure that calls the one before it
function routine(i) {
  text = ""
  put("procedure step" i "(n: integer; var total: integer);")
  put("{ counts one step up, and then goes on with the step before it }")
  put("var k, last: integer;")
  put("    seen: array [1..16] of Boolean;")
  put("begin")
  put("  last := n * " (i * 7919) % 1000 " + 1;")
  put("  for k := 1 to 16 do seen[k] := false;")
  put("  while (last > 0) and (last < maxint div 4) do begin")
  put("    k := last mod 16 + 1;")
  put("    if seen[k] then total := (total + n * " (i * 104729) % 1000 ") mod 10000")
  put("    else begin")
  put("      seen[k] := true;")
  put("      table[k] := table[k] + (last - k) * 2;")
  put("      if table[k] > 30000 then table[k] := 0")
  put("    end;")
  put("    last := last div 2")
  put("  end;")
  put("  case n mod 4 of")
  put("    0: total := total + 1;")
  put("    1, 2: begin total := total - k; if total < 0 then total := 0 end;")
  put("    3: writeln('step " i "', total:8)")
  put("  end" (i > 1 ? ";" : ""))
  if (i > 1) put("  if n < 20 then step" i - 1 "(n + 1, total)")
  put("end;")
  return text
}

BEGIN {
  fill("program steps(output);\nvar table: array [1..16] of integer;\n    sum: integer;\n",
    "begin\n  sum := 0;\n  step1(1, sum);\n  writeln(sum)\nend.\n")
}
