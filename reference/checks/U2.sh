"$ref/compare_dues" 10000 5 "$bin/program_dues" || stop "sheets of lockages differ"
