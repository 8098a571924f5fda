# What each line of a log is, as an event says it, and which place it is about.

# In each phase of a run a line: errors of the .aux file, the style's text, a database and the execution; a warning of the style's own; and a string that
# it prints, whose second half looks like an error.
begin events.each_phase
printf '\\citation{k,j}\n\\bibdata{d}\n\\bibdata{e}\n\\bibstyle{s}\n' >job.aux
printf 'ENTRY {title}{}{} FUNCTION {misc} {"w" warning$ pop$ "a" #10 int.to.chr$ * "Error--x" * top$} READ ITERATE {call.type$} READ STRUNG' >s.bst
printf '@misc{k}\n@misc{j}\n@misc{l title}\n' >d.bib
run "$tests/events" . job
wants_quiet
wants_output 'plain files - The top-level auxiliary file: job.aux
error files - Error--Illegal, another \bibdata command--line 3 of file job.aux
plain files - The style file: s.bst
plain files - Database file #1: d.bib
error databases - Error--I was expecting a , or a }--line 3 of file d.bib
warning execution 0 Warning--w
error execution 0 Error--You can'"'"'t pop an empty literal stack while executing pop$ for entry k
plain execution 0 "a
Error--x"
warning execution 1 Warning--w
error execution 1 Error--You can'"'"'t pop an empty literal stack while executing pop$ for entry j
plain execution 1 "a
Error--x"
error style - Error--Illegal, another READ command--line 1 of file s.bst
plain end - Ended: finished, warnings 2, errors 5, steps 24
'
end

for example in "${jobs[@]}"; do
    read -r folder_name job options <<<"$example"
    begin "events.${folder_name}.$job"
    run "$tests/events" "$examples/$folder_name" "$job" ${options-}
    wants_quiet
    end
done

# The place of each line: a word of the style's text, points of a database, tokens of functions with and without a name, and of the test of a loop, a command; and lines that have none.
begin places.each_phase
printf '\\citation{k,n}\n\\bibdata{d}\n\\bibdata{e}\n\\bibstyle{s}\n' >job.aux
cat >s.bst <<'end'
ENTRY {title}{}{}
FUNCTION {quit} { pop$ }
FUNCTION {misc} {"w" warning$ pop$
  {quit #0} {skip$} while$ }
READ ITERATE {call.type$} STRUNG {x}

FUNCTION {t} { { unknown } 'pop$ if$ }
EXECUTE {pop$}
FUNCTION {v} { {""} {skip$} while$ #1 'skip$ 'pop$ if$ 'pop$ {#0} while$ }
EXECUTE {v} READ
end
printf '@misc{k}\n@misc{l title}\n\n @misc{n, title=foo # }' >d.bib
run "$tests/places" . job
wants_quiet
wants_output 'The top-level auxiliary file: job.aux
  -
Error--Illegal, another \bibdata command--line 3 of file job.aux
  -
The style file: s.bst
  -
Database file #1: d.bib
  -
Error--I was expecting a , or a }--line 2 of file d.bib
  d.bib:2:17-17
Error--I was expecting a value--line 4 of file d.bib
  d.bib:4:47-47
Warning--w
  s.bst:3:64-72 3.1 `warning$`
Error--You can'"'"'t pop an empty literal stack while executing pop$ for entry k
  s.bst:3:73-77 3.2 `pop$`
Error--You can'"'"'t pop an empty literal stack while executing pop$ for entry k
  s.bst:2:36-40 0.0 `pop$`
Warning--w
  s.bst:3:64-72 3.1 `warning$`
Error--You can'"'"'t pop an empty literal stack while executing pop$ for entry n
  s.bst:3:73-77 3.2 `pop$`
Error--You can'"'"'t pop an empty literal stack while executing pop$ for entry n
  s.bst:2:36-40 0.0 `pop$`
Error--STRUNG isn'"'"'t a command--line 5 of file s.bst
  s.bst:5:139-139
Error--unknown is an unknown function--line 7 of file s.bst
  s.bst:7:162-169 `unknown`
Error--You can'"'"'t pop an empty literal stack while executing pop$
  s.bst:8:184-191 `EXECUTE`
Error--"" is not an integer while executing while$
  s.bst:9:227-233 9.2 `while$`
Error--You can'"'"'t pop an empty literal stack while executing pop$
  s.bst:9:265-271 9.9 `while$`
Error--You can'"'"'t pop an empty literal stack while executing while$
  s.bst:9:265-271 9.9 `while$`
Error--Illegal, another READ command--line 10 of file s.bst
  s.bst:10:290-290
Ended: finished, warnings 2, errors 14, steps 40
  -
'
end

# A style that is stopped has the places of what it logged before.
begin places.stopped
printf '\\citation{k}\n\\bibdata{d}\n\\bibstyle{s}\n' >job.aux
printf 'ENTRY {}{}{} FUNCTION {f} {pop$ {#1} {pop$} while$} READ EXECUTE {f}' >s.bst
printf '@misc{k}' >d.bib
run "$tests/places" . job budget=6
wants_quiet
wants_output 'The top-level auxiliary file: job.aux
  -
The style file: s.bst
  -
Database file #1: d.bib
  -
Warning--entry type for "k" isn'"'"'t style-file defined--line 1 of file d.bib
  d.bib:1:7-7
Error--You can'"'"'t pop an empty literal stack while executing pop$
  s.bst:1:27-31 2.0 `pop$`
Ended: stopped, warnings 1, errors 1, steps 6
  -
'
end

for example in "${jobs[@]}"; do
    read -r folder_name job options <<<"$example"
    begin "places.${folder_name}.$job"
    run "$tests/places" "$examples/$folder_name" "$job" ${options-}
    wants_quiet
    end
done
