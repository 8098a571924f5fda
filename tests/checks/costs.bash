# What RULES says that a job can cost at most: memory and the lengths of outputs. The times, which other work of the machine changes, are left out.

begin costs_of_jobs
python3 "$here/speed/costs.py" --without-times "$program" >"$folder/costs" || complaints+=("$(cat "$folder/costs")")
! grep '^NOT MET' "$folder/costs" || complaints+=('a bar is not met')
[ "$(grep -c '^met ' "$folder/costs")" -ge 19 ] || complaints+=("too few bars were measured: $(tail -n 1 "$folder/costs")")
end
