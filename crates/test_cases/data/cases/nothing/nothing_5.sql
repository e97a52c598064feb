-- Blanks, comments and `;` alone are no statement and have no reply.
 ; -- nothing;
;