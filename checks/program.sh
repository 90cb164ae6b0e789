# Sets `keep` to the program: to the one that the variable OLR_KEEP names, or to a copy of the proved one in "$folder".
keep=${OLR_KEEP:-$folder/olr_keep}
[[ -e $keep ]] || build/take program "$keep"
