;;; jsoncrdt.el --- Scenarios: colours, language server, debugger -*- lexical-binding: t; -*-

;; README.md beside this file says how it is loaded.

;;; Code:

(require 'lsp-mode)
(require 'dap-mode)

;; The lsp-treemacs of Debian 12, by which dap-mode shows sessions and variables, reads a variable that Debian's treemacs
;; hasn't yet.
(defvar treemacs-text-scale nil)

(defconst jsoncrdt-root
  (expand-file-name "../.." (file-name-directory (file-truename (or load-file-name buffer-file-name))))
  "The repository.")

(defconst jsoncrdt-words
  '("jsoncrdt" "replica" "given" "schedule" "let" "yield" "delete" "insertAfter" "doc" "get" "idx" "keys" "values"
    "true" "false" "null" "exec" "send" "recv" "take" "apply" "done")
  "The words of the language.")

(define-derived-mode jsoncrdt-mode prog-mode "jsoncrdt"
  "Scenarios of jsoncrdt."
  (setq-local indent-tabs-mode nil)
  (setq-local font-lock-defaults `((,(regexp-opt jsoncrdt-words 'words)))))

(add-to-list 'auto-mode-alist '("\\.jsoncrdt\\'" . jsoncrdt-mode))
(add-to-list 'lsp-language-id-configuration '(jsoncrdt-mode . "jsoncrdt"))
(lsp-register-client
 (make-lsp-client :new-connection (lsp-stdio-connection (lambda () (list (expand-file-name "tools/lsp" jsoncrdt-root))))
                  :major-modes '(jsoncrdt-mode)
                  :server-id 'jsoncrdt))
(add-hook 'jsoncrdt-mode-hook #'lsp-deferred)

(dap-register-debug-provider
 "jsoncrdt"
 (lambda (conf)
   (plist-put conf :dap-server-path (list (expand-file-name "tools/dap" jsoncrdt-root)))
   (unless (plist-get conf :program)
     (plist-put conf :program buffer-file-name))
   conf))
(dap-register-debug-template
 "Debug the scenario" (list :type "jsoncrdt" :request "launch" :name "Debug the scenario" :program nil))

;; dap-mode has no commands of its own for going back.
(defun jsoncrdt-step-back ()
  "Take the last event back."
  (interactive)
  (dap--step "stepBack" (dap--cur-session-or-die)))

(defun jsoncrdt-reverse-continue ()
  "Go back to a breakpoint, or to the start."
  (interactive)
  (dap--step "reverseContinue" (dap--cur-session-or-die)))

(provide 'jsoncrdt)
;;; jsoncrdt.el ends here
