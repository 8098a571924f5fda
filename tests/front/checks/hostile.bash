# Files with bytes changed, left out or put in: whatever they are, list, status and messages are the proved program's, and nothing but the outputs is touched.

if [ -x "$program" ]; then
    begin hostile_files
    TEXMFCNF=$room/no_tex LD_LIBRARY_PATH=$room/no_tex python3 "$here/hostile.py" --seed "${seed:-1}" "$([ -n "$few" ] && echo 60 || echo 1000)" "$program" "$search" >found ||
        complaints+=("$(tail -n 12 found)")
    echo "        $(tail -n 1 found)"
    end
else
    echo 'left out: hostile files beside the program (there is no program)'
fi
