# Completions of rmitrace for bash. tools/completions makes this file of what --help says.
_rmitrace() {
    local word=${COMP_WORDS[COMP_CWORD]} before=${COMP_WORDS[COMP_CWORD - 1]} command='' at
    COMPREPLY=()
    # After < or > comes a file.
    [[ $before == [\<\>]* || $word == [\<\>]* ]] && return
    # In --erase=3 the sign is a word of its own.
    if [[ $word == = ]]; then
        word=
    elif [[ $before == = ]]; then
        before=${COMP_WORDS[COMP_CWORD - 2]}
    fi
    for ((at = 1; at < COMP_CWORD; at++)); do
        case ${COMP_WORDS[at]} in answer | check | names | why | help) command=${COMP_WORDS[at]} && break ;; esac
    done
    case $command:$before in
        check:--only) mapfile -t COMPREPLY < <(compgen -W 'rmi_version rmi_features rmi_granule_delegate rmi_granule_undelegate rmi_realm_create rmi_realm_activate rmi_realm_destroy rmi_rec_create rmi_rec_destroy rmi_rec_enter rmi_rec_aux_count rmi_rtt_create rmi_rtt_destroy rmi_rtt_fold rmi_rtt_init_ripas rmi_rtt_set_ripas rmi_rtt_read_entry rmi_rtt_map_unprotected rmi_rtt_unmap_unprotected rmi_data_create rmi_data_create_unknown rmi_data_destroy rmi_psci_complete platform repeat smc store load fill realm_params rec_params rec_run guest interrupt state sum realm rim rec saw version gran_align gran_bound gran_state gran_gpt rd_align rd_bound rd_state params_align params_bound params_pas params_valid params_supp rtt_num_level rtt_align rtt_bound rtt_state alias vmid_valid realm_state realm_live level_bound ipa_align ipa_bound rtt_walk rtte_state rtt_live rtt_homo rtt_block desc_bound data_align data_bound data_state src_align src_bound src_pas flags_valid rtte_ripas size base_gran_align top_gran_align base_bound top_bound base_align no_progress rec_align rec_bound rec_gran_state num_aux aux_align aux_bound aux_alias aux_state mpidr_index num_recs rec_state rec_owner run_align run_bound run_pas realm_new system_off rec_runnable rec_mmio rec_psci rec_gicv3 calling_align calling_bound calling_state target_align target_bound target_state pending owner target status' -- "$word") ;;
        check:--skip) mapfile -t COMPREPLY < <(compgen -W 'rmi_version rmi_features rmi_granule_delegate rmi_granule_undelegate rmi_realm_create rmi_realm_activate rmi_realm_destroy rmi_rec_create rmi_rec_destroy rmi_rec_enter rmi_rec_aux_count rmi_rtt_create rmi_rtt_destroy rmi_rtt_fold rmi_rtt_init_ripas rmi_rtt_set_ripas rmi_rtt_read_entry rmi_rtt_map_unprotected rmi_rtt_unmap_unprotected rmi_data_create rmi_data_create_unknown rmi_data_destroy rmi_psci_complete platform repeat smc store load fill realm_params rec_params rec_run guest interrupt state sum realm rim rec saw version gran_align gran_bound gran_state gran_gpt rd_align rd_bound rd_state params_align params_bound params_pas params_valid params_supp rtt_num_level rtt_align rtt_bound rtt_state alias vmid_valid realm_state realm_live level_bound ipa_align ipa_bound rtt_walk rtte_state rtt_live rtt_homo rtt_block desc_bound data_align data_bound data_state src_align src_bound src_pas flags_valid rtte_ripas size base_gran_align top_gran_align base_bound top_bound base_align no_progress rec_align rec_bound rec_gran_state num_aux aux_align aux_bound aux_alias aux_state mpidr_index num_recs rec_state rec_owner run_align run_bound run_pas realm_new system_off rec_runnable rec_mmio rec_psci rec_gicv3 calling_align calling_bound calling_state target_align target_bound target_state pending owner target status' -- "$word") ;;
        answer:*) [[ $word == -* ]] && mapfile -t COMPREPLY < <(compgen -W '-h --help' -- "$word") ;;
        check:*) [[ $word == -* ]] && mapfile -t COMPREPLY < <(compgen -W '--each --stop --only --skip -h --help' -- "$word") ;;
        names:*) [[ $word == -* ]] && mapfile -t COMPREPLY < <(compgen -W '-h --help' -- "$word") ;;
        why:*) [[ $word == -* ]] && mapfile -t COMPREPLY < <(compgen -W '-h --help' -- "$word") ;;
        help:*) mapfile -t COMPREPLY < <(compgen -W 'answer check names why' -- "$word") ;;
        :*) mapfile -t COMPREPLY < <(compgen -W 'answer check names why help -h --help -V --version' -- "$word") ;;
    esac
}
complete -o default -F _rmitrace rmitrace
