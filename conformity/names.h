/*
 * The names of the kit that a linker sees begin with kit_, so that the firmware with which it is linked may have its own of the same names. Left out are the
 * three that a board knows, run_vectors, next_byte and put_byte, and make_call, which tools wrap or rename. runner.h does not include this file, so that a
 * board's own code keeps its names.
 */
#ifndef NAMES_H
#define NAMES_H

#define add_back kit_add_back
#define add_forward kit_add_forward
#define add_image_byte kit_add_image_byte
#define add_signed kit_add_signed
#define append kit_append
#define arbitrary kit_arbitrary
#define artin kit_artin
#define begin kit_begin
#define below kit_below
#define between kit_between
#define block kit_block
#define braid kit_braid
#define call_kinds kit_call_kinds
#define can_have kit_can_have
#define cell_of kit_cell_of
#define chain_image kit_chain_image
#define change_one kit_change_one
#define commute_with kit_commute_with
#define copy_word kit_copy_word
#define cyclic kit_cyclic
#define damage_image kit_damage_image
#define draw_call kit_draw_call
#define draw_check kit_draw_check
#define draw_length kit_draw_length
#define draw_limits kit_draw_limits
#define draw_one kit_draw_one
#define draw_other kit_draw_other
#define draw_part_done kit_draw_part_done
#define draw_table kit_draw_table
#define draw_text kit_draw_text
#define draw_tray kit_draw_tray
#define draw_two kit_draw_two
#define draw_two_signed kit_draw_two_signed
#define draw_weight kit_draw_weight
#define ended kit_ended
#define endless kit_endless
#define field_bytes kit_field_bytes
#define folded kit_folded
#define growing kit_growing
#define guarded kit_guarded
#define hand_forward kit_hand_forward
#define hand_in kit_hand_in
#define hand_program kit_hand_program
#define hand_table kit_hand_table
#define hand_whole kit_hand_whole
#define in_answer kit_in_answer
#define in_workspace kit_in_workspace
#define key_name kit_key_name
#define lay_plain kit_lay_plain
#define leads kit_leads
#define lend kit_lend
#define lists_chain kit_lists_chain
#define mirrorless kit_mirrorless
#define multiple kit_multiple
#define neighbours kit_neighbours
#define number_anew kit_number_anew
#define once_in kit_once_in
#define outcome_of kit_outcome_of
#define partly_commuting kit_partly_commuting
#define plain_program kit_plain_program
#define plain_table kit_plain_table
#define powers kit_powers
#define prepare kit_prepare
#define program_image kit_program_image
#define put_bytes kit_put_bytes
#define put_entry kit_put_entry
#define put_field kit_put_field
#define put_number kit_put_number
#define put_outcome kit_put_outcome
#define put_text kit_put_text
#define put_vector kit_put_vector
#define random_bits kit_random_bits
#define signed_walk kit_signed_walk
#define single kit_single
#define sum_of kit_sum_of
#define table_image kit_table_image
#define takes kit_takes
#define turn kit_turn
#define twins kit_twins
#define undo kit_undo
#define walk kit_walk
#define weigh kit_weigh
#define weigh_some kit_weigh_some
#define weight_of kit_weight_of
#define whole kit_whole
#define written_beside kit_written_beside

#endif
